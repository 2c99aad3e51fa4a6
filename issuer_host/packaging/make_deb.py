"""Makes the Debian package of the proved programs, the same bytes each time.

usage: deploy/make-deb [--from FOLDER] [--to FOLDER]

--from  where `./issuer prove` left the programs and the record of their proof (.build)
--to    where the package goes (.build)

It has the programs and their record, the launcher without what builds and proves, the commands of this folder with what
they stand on, the service units, manual pages and pages. It needs dpkg-deb. The time of all files is SOURCE_DATE_EPOCH,
and the maintainer DEBFULLNAME and DEBEMAIL, or else those of the last commit. It prints the package's path.
"""
import argparse
import glob
import hashlib
import json
import os
import shutil
import subprocess
import tempfile
import time
from collections.abc import Sequence
from typing import NamedTuple

from issuer_host import INSTALLED
from issuer_host.facts import version
from issuer_host.facts.paths import BUILD, HOME, HOST, PAGES_OF_DOCS, PROGRAMS
from issuer_host.facts.proof import is_proved, read_record
from issuer_host.facts.refusal import Refusal, tell
from issuer_host.launcher.proved_program import why_changed
from issuer_host.packaging.texts import AFTER_INSTALL, BEFORE_REMOVE, CONTROL, COPYRIGHT, LAUNCHER, OVERRIDES
from issuer_host.packaging.tree import Tree

DEPLOY = os.path.join(HOME, "deploy")
PRIVATE = "usr/lib/issuer"
# The commands of deploy, and their names in an installed copy.
COMMANDS = {
    "issuer-run": "issuer-run",
    "bridge": "issuer-bridge",
    "queues": "issuer-queues",
    "ask": "issuer-ask",
    "order": "issuer-order",
    "advices": "issuer-advices",
    "trace": "issuer-trace",
    "partition": "issuer-partition",
    "repartition": "issuer-repartition",
    "follow": "issuer-follow",
    "standby": "issuer-standby",
    "gateway": "issuer-gateway",
    "dialect": "issuer-dialect",
    "clearing-lines": "issuer-clearing-lines",
    "look": "issuer-look",
    "check": "issuer-check",
    "keys": "issuer-keys",
    "node": "issuer-node",
    "rejoin": "issuer-rejoin",
    "replace": "issuer-replace",
    "status": "issuer-status",
    "probe": "issuer-probe",
    "backup": "issuer-backup",
}
UNIT, STANDBY = "issuer@.service", "issuer-standby@.service"
# Units that are packaged as they are.
WHOLE_UNITS = (
    *("issuer-gateway.service", "issuer-node.service", "issuer-rejoin.service", "issuer-status.service"),
    *("issuer-backup@.service", "issuer-backup@.timer"),
)
# Drop-ins of the units: for keys at rest, and for journals with a disk of their own.
DROP_INS = ("encrypted-configuration.conf", "own-disk.conf", "token.conf")
MANUALS = ("issuer.1", "issuer-journal.5", "issuer-deploy.8", "issuer-gateway.8")
# All pages: each points to others, and one to the list of faults.
DOCS = os.path.join(HOME, "docs")
FOUND = sorted(
    os.path.relpath(path, DOCS) for pattern in PAGES_OF_DOCS for path in glob.glob(os.path.join(HOME, pattern))
)
PAGES = (*FOUND, "assurance/faults.txt", "CHANGELOG.md")


class PackageOptions(NamedTuple):
    """The words of the command."""

    built: str
    to: str


def options_of(words: Sequence[str]) -> PackageOptions:
    parser = argparse.ArgumentParser(usage=__doc__)
    parser.add_argument("--from", dest="built", default=BUILD)
    parser.add_argument("--to", default=BUILD)
    return PackageOptions(**vars(parser.parse_args(words)))


def version_of() -> str:
    """Returns the host's version, in Debian's order of versions."""
    return version.version().replace("-", "~")


def of_last_commit(form: str, variables: Sequence[str]) -> list[str]:
    """Returns what the environment says, or else the last commit."""
    found = [os.environ.get(name, "") for name in variables]
    if all(found):
        return found
    command = ["git", "log", "-1", f"--format={form}"]
    ran = subprocess.run(command, cwd=HOME, capture_output=True, text=True, check=False)
    if ran.returncode:
        raise Refusal(f"set {' and '.join(variables)}: there is no commit here to ask")
    return ran.stdout.splitlines()


def standby_of(unit: str) -> str:
    """Returns the unit of a partition's second bridge: another name, its word, and other ports for its figures."""
    name = "Description=Authorisation host of"
    found = unit.replace(name, "Description=Standby of the authorisation host of")
    return found.replace("--figures 10000", "--second --figures 20000")


def add_programs(tree: Tree, built: str) -> None:
    """Adds the programs, if the record of their proof names them and no source changed since."""
    program = os.path.join(built, HOST.file)
    record = os.path.join(built, "issuer.proved")
    if not os.path.isfile(program) or not is_proved(program, record):
        what = "has no program with the record of its proof: run ./issuer prove, or name another folder by --from"
        raise Refusal(f"{built} {what}")
    said = read_record(record)
    why = why_changed(said, built)
    if why:
        raise Refusal(f"{why}: run ./issuer prove before a package is made")
    for one in PROGRAMS:
        if one.member in said:
            tree.copy(os.path.join(built, one.file), f"{PRIVATE}/.build/{one.file}", 0o755)
    with open(record, encoding="utf-8") as text:
        tree.write(f"{PRIVATE}/.build/issuer.proved", json.dumps(json.load(text), sort_keys=True) + "\n")
    with open(os.path.join(HOME, "issuer"), encoding="utf-8") as text:
        launcher = text.read().partition("\n")[2]
    tree.write(f"{PRIVATE}/issuer", f"#!/usr/bin/python3 -IS\n{launcher}", 0o755)
    tree.write("usr/bin/issuer", LAUNCHER, 0o755)


def add_package(tree: Tree) -> None:
    """Adds what launcher and commands stand on."""
    package = os.path.join(HOME, "issuer_host")
    for folder in (package, *(os.path.join(package, name) for name in INSTALLED)):
        for path in sorted(glob.glob(f"{folder}/*.py")):
            tree.copy(path, f"{PRIVATE}/{os.path.relpath(path, HOME)}")
    tree.copy(version.FILE, f"{PRIVATE}/VERSION")


def add_commands(tree: Tree) -> None:
    for name, installed in COMMANDS.items():
        tree.copy(os.path.join(DEPLOY, name), f"{PRIVATE}/deploy/{name}", 0o755)
        tree.link(f"usr/bin/{installed}", f"../lib/issuer/deploy/{name}")
    with open(os.path.join(DEPLOY, "units", UNIT), encoding="utf-8") as text:
        unit = text.read()
    tree.write(f"lib/systemd/system/{UNIT}", unit)
    tree.write(f"lib/systemd/system/{STANDBY}", standby_of(unit))
    for name in WHOLE_UNITS:
        tree.copy(os.path.join(DEPLOY, "units", name), f"lib/systemd/system/{name}")
    tree.copy(os.path.join(DEPLOY, "openapi.json"), f"{PRIVATE}/deploy/openapi.json")
    for name in sorted(os.listdir(os.path.join(DEPLOY, "dialects"))):
        tree.copy(os.path.join(DEPLOY, "dialects", name), f"{PRIVATE}/deploy/dialects/{name}")
    # (configurations with keys are there)
    os.makedirs(os.path.join(tree.root, "etc/issuer"), mode=0o700)


def path_of_page(name: str) -> str:
    """Returns where a page of the package lies in the tree: in docs, or at the top."""
    path = os.path.join(DOCS, name)
    return path if os.path.exists(path) else os.path.join(HOME, name)


def add_pages(tree: Tree, maintainer: str) -> None:
    for name in MANUALS:
        tree.page(name)
    for page in [f"{installed}.8" for installed in COMMANDS.values()]:
        if page not in MANUALS:
            tree.link(f"usr/share/man/man8/{page}.gz", "issuer-deploy.8.gz")
    at = "usr/share/doc/issuer"
    moment = time.gmtime(tree.epoch)
    tree.write(f"{at}/copyright", COPYRIGHT.format(year=moment.tm_year))
    date = time.strftime("%a, %d %b %Y %H:%M:%S +0000", moment)
    head = f"issuer ({tree.version}) unstable; urgency=medium"
    changes = f"{head}\n\n  * Package of the proved program.\n\n -- {maintainer}  {date}\n"
    tree.compress(f"{at}/changelog.gz", changes.encode())
    tree.write("usr/share/lintian/overrides/issuer", OVERRIDES)
    for name in PAGES:
        with open(path_of_page(name), "rb") as data:
            tree.compress(f"{at}/{name}.gz", data.read())
    tree.copy(os.path.join(DEPLOY, "README.md"), f"{at}/README.md")
    for name in ("alerts.yml", "dashboard.json"):
        tree.copy(os.path.join(DEPLOY, name), f"{at}/examples/{name}")
    for name in sorted(os.listdir(os.path.join(DEPLOY, "examples"))):
        tree.copy(os.path.join(DEPLOY, "examples", name), f"{at}/examples/{name}")
    for name in DROP_INS:
        tree.copy(os.path.join(DEPLOY, "units", name), f"{at}/examples/{name}")
    for name in ("config", "requests"):
        tree.copy(os.path.join(HOME, "examples", name), f"{at}/examples/{name}")


def add_control(tree: Tree, maintainer: str) -> None:
    sums = ""
    size = 0
    for path in tree.files():
        with open(os.path.join(tree.root, path), "rb") as data:
            held = data.read()
        # (Debian's format has this sum; it protects against accidents alone)
        sums += f"{hashlib.md5(held, usedforsecurity=False).hexdigest()}  {path}\n"
        size += len(held)
    tree.write("DEBIAN/md5sums", sums)
    control = CONTROL.format(version=tree.version, maintainer=maintainer, size=size // 1024 + 1)
    tree.write("DEBIAN/control", control)
    tree.write("DEBIAN/postinst", AFTER_INSTALL, 0o755)
    tree.write("DEBIAN/prerm", BEFORE_REMOVE, 0o755)


def make(options: PackageOptions) -> str:
    """Makes the package, and returns its path."""
    if not shutil.which("dpkg-deb"):
        raise Refusal("dpkg-deb isn't installed")
    number = version_of()
    epoch = int(of_last_commit("%ct", ["SOURCE_DATE_EPOCH"])[0])
    maintainer = "{} <{}>".format(*of_last_commit("%an%n%ae", ["DEBFULLNAME", "DEBEMAIL"]))
    os.umask(0o022)
    with tempfile.TemporaryDirectory(prefix="issuer-deb-") as folder:
        tree = Tree(os.path.join(folder, "root"), epoch, number)
        add_programs(tree, options.built)
        add_package(tree)
        add_commands(tree)
        add_pages(tree, maintainer)
        add_control(tree, maintainer)
        made = os.path.join(options.to, f"issuer_{number}_amd64.deb")
        command = ["dpkg-deb", "--root-owner-group", "-Zxz", "--threads-max=1", "--build", tree.root, made]
        environment = dict(os.environ) | {"SOURCE_DATE_EPOCH": str(epoch)}
        subprocess.run(command, env=environment, stdout=subprocess.DEVNULL, check=True)
    return made


def main(words: Sequence[str]) -> int:
    options = options_of(words)
    try:
        print(make(options))
    except Refusal as refusal:
        tell("make-deb", str(refusal))
        return 1
    return 0
