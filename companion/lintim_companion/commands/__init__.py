"""The commands that `registry` names: each module has a function `run(words, talk)`."""
