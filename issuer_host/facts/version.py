"""The host's version: the file VERSION at the top of the tree, and of an installed copy."""
import os
import re

from issuer_host.facts.paths import HOME

FILE = os.path.join(HOME, "VERSION")
# As 0.9.0, or 0.10.0-dev before 0.10.0.
FORM = re.compile(r"\d+\.\d+\.\d+(-[a-z0-9]+)?")


def version() -> str:
    """Returns the version. A file of another form is a ValueError."""
    with open(FILE, encoding="utf-8") as text:
        found = text.read().strip()
    if not FORM.fullmatch(found):
        raise ValueError(f"{FILE} has to be one version, as 0.9.0 or 0.10.0-dev, and is {found!r}")
    return found
