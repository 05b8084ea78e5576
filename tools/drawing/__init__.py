"""Pictures of natural-deduction trees. See tools/README.md."""
