"""Tests that hold the pages to the tree and to the program.

- `naming`: the names in the pages, for `tests/names`
- `faults`: reads docs/assurance/faults.txt
- `page_commands`: the commands of a page, and a shell that runs them
- `runbook_machine`: a folder that stands in for a machine with the package installed
"""
