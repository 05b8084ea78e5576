"""Scripts for holding the checker against the original: batches of tables, the same in every run."""
