"""`./issuer docs`: the pages with those that are made of the tree, as Markdown and as a site."""
import argparse
import glob
import os
import shutil
import subprocess
import sys
from collections.abc import Sequence
from typing import NamedTuple

from issuer_host.facts.paths import BUILD, HOME, PAGES_OF_DOCS
from issuer_host.launcher.messages import complain, stop, tell

# What is copied, with its path: the pages, and what they show or link to.
COPIED = (
    *(
        "*.md",
        "LICENSE",
        "NOTICE",
        *PAGES_OF_DOCS,
        "docs/assurance/faults.txt",
        "docs/plots/*",
        "deploy/*.md",
    ),
    *("tests/*.md", "tests/*/*.md", "crates/*.md", "crates/*/*.md"),
)
SITE = "docs/site"
MAKE = "tests/pages/make"
MADE = "docs/made"
SPHINX = "sphinx-build"
# Debian's Python, which Debian's Sphinx runs by.
PYTHON = "/usr/bin/python3"
MODULES = ("sphinx", "myst_parser", "furo")
PACKAGES = "python3-sphinx python3-myst-parser furo"
# Builders of Sphinx: pages in HTML, and none, which checks as much.
HTML, NONE = "html", "dummy"


class DocsOptions(NamedTuple):
    """The words of the command."""

    to: str
    check: bool


class Built(NamedTuple):
    """How a build of the site ended, and what was said of pages."""

    status: int
    said: str


def options_of(words: Sequence[str]) -> DocsOptions:
    parser = argparse.ArgumentParser(prog="issuer docs", description=__doc__)
    parser.add_argument("--to", default=os.path.join(BUILD, "docs"), help="the folder (.build/docs)")
    parser.add_argument("--check", action="store_true", help="checks links and anchors, and writes no site")
    return DocsOptions(**vars(parser.parse_args(words)))


def why_no_site() -> str:
    """Says what a site lacks here, or nothing."""
    if shutil.which(SPHINX) is None:
        return f"{SPHINX} isn't installed"
    tried = "; ".join(f"import {name}" for name in MODULES)
    ran = subprocess.run([PYTHON, "-c", tried], stdin=subprocess.DEVNULL, capture_output=True, text=True, check=False)
    return ran.stderr.rstrip().rpartition("\n")[2] if ran.returncode else ""


def copy_pages(to: str) -> None:
    """Copies the pages with their paths, and has those written that are made of the tree."""
    shutil.rmtree(to, ignore_errors=True)
    for path in (
        os.path.relpath(found, HOME) for pattern in COPIED for found in sorted(glob.glob(os.path.join(HOME, pattern)))
    ):
        copy = os.path.join(to, path)
        os.makedirs(os.path.dirname(copy), exist_ok=True)
        shutil.copyfile(os.path.join(HOME, path), copy)
    command = [sys.executable, "-B", os.path.join(HOME, MAKE), os.path.join(to, MADE)]
    subprocess.run(command, stdin=subprocess.DEVNULL, check=True)


def build(folder: str, builder: str) -> Built:
    """Has the site made of a folder's pages. What is wrong with a link or an anchor ends the build with 1."""
    pages, settings = os.path.join(folder, "pages"), os.path.join(folder, "settings")
    shutil.rmtree(settings, ignore_errors=True)
    shutil.copytree(os.path.join(HOME, SITE), settings)
    shutil.copyfile(os.path.join(settings, "index.md"), os.path.join(pages, "index.md"))
    where = ["-c", settings, "-d", os.path.join(folder, "known"), pages, os.path.join(folder, "site")]
    command = [SPHINX, "-q", "-W", "--keep-going", "-b", builder, *where]
    ran = subprocess.run(command, stdin=subprocess.DEVNULL, capture_output=True, text=True, check=False)
    return Built(ran.returncode, (ran.stdout + ran.stderr).replace(f"{pages}/", ""))


def write_docs(words: Sequence[str]) -> int:
    """Does what the words ask for, and returns the status."""
    options = options_of(words)
    folder = os.path.abspath(options.to)
    os.makedirs(folder, exist_ok=True)
    copy_pages(os.path.join(folder, "pages"))
    print(f"{folder}/pages", flush=True)
    why = why_no_site()
    if why:
        stop(f"the pages are there, and no site: {why}. On Debian: apt-get install {PACKAGES}")
    built = build(folder, NONE if options.check else HTML)
    for line in built.said.splitlines():
        complain(line)
    if built.status:
        tell("a page has a wrong link or anchor, or is in no list of docs/site/index.md")
        return 1
    if not options.check:
        print(f"{folder}/site/index.html")
    return 0
