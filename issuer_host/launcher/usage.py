"""The launcher's usage, of the table of commands."""
from issuer_host.facts.commands import COMMANDS, TABLE

# What the launcher itself does, and how it is called.
OF_LAUNCHER = (
    (
        "check --config FILE",
        "names each fault of a configuration by line, column and member, then what a host accepts and nobody meant",
    ),
    (
        "prove [--anew]",
        "proves the program and builds it, for all later runs; what an earlier run proved is taken, except with --anew",
    ),
    ("docs [--to FOLDER] [--check]", "makes the pages of the tree, and a site of all pages with a search"),
    ("test", "runs the checks of pages, the tests of all crates and the examples, by builds without proofs"),
    (
        f"--never-build {'|'.join(COMMANDS)} ..",
        "runs the proved program or nothing, as ISSUER_NEVER_BUILD=1 in the environment does",
    ),
)
BEFORE = "issuer: the issuer's authorisation host for EMV chip cards\n"
AFTER = """
An example:
  ./issuer serve --config examples/config --requests examples/requests --journal journal

Until ./issuer prove has ended, a build without proofs answers. Each run makes it anew: in a minute on a
quiet machine, in five or more on a busy one.
`rt ci` is the gate: it proves every crate, and runs the tests and the program.
docs/start/tutorial.md takes one card through; docs/formats has the texts of all files, answers and statuses.
"""


def usage() -> str:
    rows = [(command.usage, command.does) for command in TABLE]
    calls = [f"  ./issuer {call}\n      {does}\n" for call, does in [*rows, *OF_LAUNCHER]]
    alone = "  ./issuer --help | --version\n"
    return "\n".join((BEFORE, "".join(calls) + alone + AFTER))
