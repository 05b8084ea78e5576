"""Proof table files: written from text, and printed as text. See tools/README.md."""
