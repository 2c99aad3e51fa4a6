"""The commands of a page, with what they print, the folder that they need, and a shell that runs them.

A command is an indented line that begins with `$ `, with the lines of its here-document if it has one. The indented
lines up to the next command, or to the block's end, are what it prints.
"""
import hashlib
import json
import os
import re
import shutil
import signal
import subprocess
from collections.abc import Mapping, Sequence
from dataclasses import dataclass
from typing import Optional

from issuer_host.facts.paths import HOME

# (no page and no program writes it)
MARK = "\x1e"
INDENT = "    "
PROMPT = "$ "
SECTION = "## "
LINKS = ("docs", "examples", "tests")
# Commands that start the program by themselves: their tree is the folder, so that they start the one that is tried.
COPIES = ("deploy", "issuer_host", "tools")


@dataclass
class Command:
    """A command of a page, with its here-document, its line, and the text that it has to print."""

    text: str
    line: int
    prints: str = ""


def commands_of(page: str) -> list[Command]:
    """Returns the commands of a page."""
    found: list[Command] = []
    # The word that ends a here-document, and whether what follows is printed by the last command.
    ending = ""
    is_printed = False
    with open(os.path.join(HOME, page), encoding="utf-8") as text:
        for number, line in enumerate(text, 1):
            if not line.startswith(INDENT):
                is_printed = is_printed and line.strip() == "" and ending != ""
                ending = ""
                continue
            line = line.removeprefix(INDENT)
            if ending:
                found[-1].text += line
                ending = "" if line.strip() == ending else ending
            elif line.startswith(PROMPT):
                found.append(Command(line.removeprefix(PROMPT), number))
                here = re.search(r"<<'?(\w+)'?", line)
                ending = here[1] if here else ""
                is_printed = True
            elif is_printed:
                found[-1].prints += line
    return found


def section_of(page: str, line: int) -> str:
    """Returns the title of the section of a page that has a line; nothing above the first one."""
    with open(os.path.join(HOME, page), encoding="utf-8") as text:
        titles = [row.removeprefix(SECTION).strip() for row in list(text)[:line] if row.startswith(SECTION)]
    return titles[-1] if titles else ""


def script_of(commands: Sequence[Command]) -> str:
    """Returns a script of the commands, which writes a mark after each."""
    return "".join(f"{command.text}printf '{MARK}'\n" for command in commands)


def run_shell(
    script: str, folder: str, seconds: float, environment: Optional[Mapping[str, str]] = None
) -> tuple[str, str, int]:
    """Runs a script of commands. Returns what it wrote and complained, and its status."""
    shell = subprocess.Popen(
        ["bash", "-c", script],
        cwd=folder,
        env=environment,
        text=True,
        stdin=subprocess.DEVNULL,
        stdout=subprocess.PIPE,
        stderr=subprocess.PIPE,
        start_new_session=True,
    )
    try:
        wrote, complained = shell.communicate(timeout=seconds)
    except subprocess.TimeoutExpired:
        os.killpg(shell.pid, signal.SIGKILL)
        wrote, complained = shell.communicate()
    return wrote, complained, shell.returncode


def lay_out(folder: str, program: str) -> None:
    """Makes the folder in which a page's commands run."""
    os.symlink(program, os.path.join(folder, "issuer"))
    for name in LINKS:
        os.symlink(os.path.join(HOME, name), os.path.join(folder, name))
    for name in COPIES:
        shutil.copytree(
            os.path.join(HOME, name), os.path.join(folder, name), ignore=shutil.ignore_patterns("__pycache__")
        )
    os.mkdir(os.path.join(folder, ".build"))
    shutil.copy(program, os.path.join(folder, ".build/issuer"))
    with open(program, "rb") as data:
        total = hashlib.sha256(data.read()).hexdigest()
    with open(os.path.join(folder, ".build/issuer.proved"), "w", encoding="utf-8") as record:
        json.dump({"program": total}, record)
