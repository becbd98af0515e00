"""The customers of a day: which way each one takes, planned and late, and what that loads."""
