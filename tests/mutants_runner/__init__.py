"""Judges mutants: many of a crate by one check of one copy. See docs/GATE.md."""
