"""Waiting decisions that cost least: which changes of a late day are kept (A. Schöbel,
Optimization in Public Transportation, 2006), found by HiGHS and proved by a tree."""
