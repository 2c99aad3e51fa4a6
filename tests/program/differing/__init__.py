"""The checks of `tests/program/differential`: the built program and tests/oracle over the same random files.

- `pair`: runs both, each in a folder of its own with the same files, and compares what they write and keep
- `traffic`: configurations, and lines for their cards, valid and hostile
- `damage`: texts with something changed
- `journals`: runs over journals, damaged and old journals, feeds to standbys
- `settings`: configurations with one place changed
- `words`: command-line arguments, worlds, DOLs, PIN changes

Each check draws from a generator of its own, of the seed and the check's name.
"""
