"""What is wrong with a dataset, where, and what would help: told beside the reports of `lintim`."""
