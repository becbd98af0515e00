"""The version of `lintim` and of this package. CHANGELOG has a section for it."""

VERSION = "1.0.0"
RELEASED = "2026-11-30"
