"""The checks of `tests/names`: that each name in the pages exists in the tree.

- `tree`: what the tree has: the words of each crate and of the scripts, options, crates, edits
- `pages`: a page, span by span and block by block
- `lists`: the faults of docs/assurance/faults.txt, the reading lists of docs/assurance/reading-guide.md, CHANGELOG.md
  beside VERSION
"""
