"""Seals of a record: signed statements of what it had at each close, and all that is checked by them (docs/VERIFY.md)."""
