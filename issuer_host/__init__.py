"""The Python around the program, as one package of subpackages. Each imports only from those before it in `INSTALLED`.

docs/develop/map.md has the subpackages, a row for each of their modules, and where to look for what.

A command stays where users call it, and is a few lines over a module here. It puts the package's home on its path:

    #!/usr/bin/python3
    import os
    import sys

    sys.path.insert(0, os.path.dirname(os.path.dirname(os.path.realpath(__file__))))
    from issuer_host.facts import journals
    from issuer_host.facts.statuses import Status

The package needs Python 3.9 and its standard library alone. Every function is typed. `tests/lint` runs black, flake8
and mypy over all Python files of the tree.
"""

# The subpackages in their order: those of an installed copy, and those that need the sources.
INSTALLED = (
    *("facts", "files", "configuration", "keys", "start", "host", "orders", "broker", "telling", "commands", "gateway"),
    *("clearing", "replication", "status", "launcher"),
)
OF_SOURCES = ("building", "packaging")
