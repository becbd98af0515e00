"""What planners want around `lintim`: datasets as tables, and commands over well-kept solvers."""
