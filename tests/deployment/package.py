"""The Debian package: made twice with the same bytes, what it has, and that no part of it builds or proves."""
import glob
import json
import os
import shutil
import tempfile

from checks import Check, Tally, check_of
from deployment.running import Ran, fails, run, run_tool
from issuer_host import INSTALLED, OF_SOURCES
from issuer_host.facts.paths import HOME
from issuer_host.facts.proof import sum_of
from issuer_host.facts.statuses import Status
from issuer_host.launcher.sources import sources_of
from issuer_host.launcher.toolchain import kit_of, toolchain
from issuer_host.packaging.make_deb import PRIVATE
from runs import content_of, write_text

ENVIRONMENT = {
    "SOURCE_DATE_EPOCH": "1700000000",
    "DEBFULLNAME": "A Maintainer",
    "DEBEMAIL": "maintainer@example.org",
}
# What is beside the dialects.
SCHEMA = "schema.json"
LICENCE = "/usr/share/common-licenses/Apache-2.0"
# How a command begins that reads no module of a user's; the second without the packages of other makers, for speed.
ISOLATED = ("#!/usr/bin/python3 -I", "#!/usr/bin/python3 -IS")


class Package:
    """A package of a program, made and unpacked in a folder. The record of its proof is a trial's."""

    def __init__(self, program: str) -> None:
        self.room = tempfile.TemporaryDirectory()
        self.folder = self.room.name
        self.root = f"{self.folder}/root"
        os.mkdir(f"{self.folder}/built")
        shutil.copyfile(program, f"{self.folder}/built/issuer")

    def write_record(self, rule: str = "", **more: str) -> None:
        """Writes the record of a proof, which names the program that decides by the rule if its sum is given."""
        rt = toolchain()
        kit = kit_of(rt) if rt else "a trial"
        programs = {"program": sum_of(f"{self.folder}/built/issuer"), **({"rule": rule} if rule else {})}
        record = {**programs, "sources": sources_of(HOME) | more, "kit": kit}
        write_text(self.folder, "built/issuer.proved", json.dumps(record))

    def make(self, tally: Tally) -> Ran:
        words = ["--from", f"{self.folder}/built", "--to", self.folder]
        return run(tally, "make-deb", *words, env=os.environ | ENVIRONMENT)

    def made(self, tally: Tally) -> str:
        """Makes the package, and returns its path."""
        ran = self.make(tally)
        if ran.returncode:
            raise ValueError(f"no package was made: {ran}")
        return ran.stdout.strip()

    def path(self, name: str) -> str:
        return os.path.join(self.root, name)


# The package of each program, which all checks look at that change nothing in it, and its path.
MADE: dict[str, tuple[Package, str]] = {}


def made_once(tally: Tally) -> tuple[Package, str]:
    """The package of the program, made and unpacked by the first check that looks at it, and its path."""
    if tally.program not in MADE:
        package = Package(tally.program)
        package.write_record()
        path = package.made(tally)
        run_tool(tally, "dpkg-deb", "-x", path, package.root).check_returncode()
        MADE[tally.program] = package, path
    return MADE[tally.program]


def refuses_an_unproved_program(tally: Tally) -> None:
    """No package is made of a program without the record of its proof."""
    fails(tally, Package(tally.program).make(tally), "a program without its record", "./issuer prove")


def refuses_a_program_of_other_sources(tally: Tally) -> None:
    """No package is made of a program whose sources changed since its proof, or whose record names none."""
    for more, said in (
        ({"crates/row_core": "0" * 64}, "crates/row_core changed"),
        ({"HANDLES": "0"}, "HANDLES changed"),
    ):
        package = Package(tally.program)
        package.write_record(**more)
        fails(tally, package.make(tally), f"a program of other sources, {more}", said)
    record = {"program": sum_of(f"{package.folder}/built/issuer")}
    write_text(package.folder, "built/issuer.proved", json.dumps(record))
    fails(tally, package.make(tally), "a record that names no sources", "changed since the program was proved")


def has_both_programs(tally: Tally) -> None:
    """A package has the program that decides by the rule of several machines too, if the record names it."""
    package = Package(tally.program)
    rule = f"{package.folder}/built/issuer-rule"
    write_text(package.folder, "built/issuer-rule", "a program\n")
    package.write_record(rule=sum_of(rule))
    run_tool(tally, "dpkg-deb", "-x", package.made(tally), package.root).check_returncode()
    tally.expect(sum_of(package.path(f"{PRIVATE}/.build/issuer-rule")), sum_of(rule), "the program in the package")
    write_text(package.folder, "built/issuer-rule", "another program\n")
    fails(tally, package.make(tally), "another program than the record's", "issuer-rule in")
    os.remove(rule)
    fails(tally, package.make(tally), "no program that the record names", "issuer-rule in")


def has_the_same_bytes(tally: Tally) -> None:
    """A package is made twice with the same bytes, and its name has the version."""
    package, path = made_once(tally)
    first = sum_of(path)
    tally.expect(sum_of(package.made(tally)), first, "the package's sum the second time")
    number = content_of(f"{HOME}/VERSION").strip().replace("-", "~")
    tally.expect(os.path.basename(path), f"issuer_{number}_amd64.deb", "the package's name")


def has_version_and_licence(tally: Tally) -> None:
    """An installed copy has the VERSION of the sources, and the licence."""
    package = made_once(tally)[0]
    installed = content_of(package.path(f"{PRIVATE}/VERSION"))
    tally.expect(installed, content_of(f"{HOME}/VERSION"), "the package's VERSION")
    text = content_of(package.path("usr/share/doc/issuer/copyright"))
    tally.holds("License: Apache-2.0\n" in text and LICENCE in text, f"the licence: {text!r}")


def runs_the_packaged_program(tally: Tally) -> None:
    """The launcher of an installed copy runs the program."""
    package = made_once(tally)[0]
    launcher = package.path(f"{PRIVATE}/issuer")
    words = ("--never-build", "world", "--cards", "2", "--steps", "9", "--seed", "1")
    ran = run_tool(tally, launcher, *words)
    tally.expect((ran.returncode, len(ran.stdout.splitlines())), (0, 11), f"a world, with {ran.stderr!r}")


def has_its_commands(tally: Tally) -> None:
    """Each command of an installed copy leads to a file that runs, and the gateway finds its dialects."""
    package = made_once(tally)[0]
    commands = glob.glob(package.path("usr/bin/*"))
    tally.holds(commands, "the package has no command")
    for path in commands:
        tally.holds(os.path.exists(path) and os.access(path, os.X_OK), f"{path} leads nowhere")
    ran = run_tool(tally, package.path("usr/bin/issuer-gateway"), "--listen", "0=none")
    tally.expect(ran.returncode, Status.USAGE, "the status of the packaged gateway without a dialect's name")
    dialects = sorted(name.removesuffix(".json") for name in os.listdir(f"{HOME}/deploy/dialects") if name != SCHEMA)
    tally.holds(f"shipped are {', '.join(dialects)}\n" in ran.stderr, f"the packaged gateway: {ran.stderr!r}")


def needs_what_it_runs(tally: Tally) -> None:
    """It depends on what a bridge can't do without, its commands read no module of a user's and leave none compiled."""
    package, path = made_once(tally)
    ran = run_tool(tally, "dpkg-deb", "--field", path, "Depends")
    needed = [word.split()[0] for word in ran.stdout.strip().split(", ")]
    tally.holds({"python3", "python3-pika", "passwd"} <= set(needed), f"the package depends on {needed}")
    mode = os.stat(package.path("etc/issuer")).st_mode & 0o777
    tally.expect(mode, 0o700, "the mode of the folder of configurations")
    commands = [one for one in glob.glob(package.path(f"{PRIVATE}/deploy/*")) if os.access(one, os.X_OK)]
    scripts = [one for one in commands if os.path.isfile(one)]
    tally.holds(scripts, "the package has no script")
    for one in scripts:
        first = content_of(one).partition("\n")[0]
        tally.holds(first in ISOLATED, f"the first line of {one} is {first}")
        run_tool(tally, one, "--help")
    compiled = [name for name, folders, _ in os.walk(package.root) if "__pycache__" in folders]
    tally.expect(compiled, [], "where its commands left compiled modules")


def has_no_part_that_builds(tally: Tally) -> None:
    """An installed copy has no module that builds, proves, tries or packages, and the launcher refuses to."""
    package = made_once(tally)[0]
    folders = {
        os.path.basename(os.path.dirname(one)) for one in glob.glob(package.path(f"{PRIVATE}/issuer_host/*/*.py"))
    }
    tally.expect(folders, set(INSTALLED), "the subpackages that are shipped")
    found = {name for _, names, _ in os.walk(package.root) for name in names}
    tally.expect(found & {*OF_SOURCES, "trials", "__pycache__"}, set(), "folders that aren't shipped")
    for word in ("prove", "test"):
        ran = run_tool(tally, package.path(f"{PRIVATE}/issuer"), word)
        is_refused = ran.returncode == Status.NO_PROGRAM and "there are no sources here" in ran.stderr
        tally.holds(is_refused, f"`{word}` of an installed copy: status {ran.returncode}, {ran.stderr!r}")


def lintian_is_content(tally: Tally) -> None:
    """Lintian finds neither an error nor a warning in the package."""
    if not shutil.which("lintian"):
        print("left out: lintian, which isn't installed")
        return
    path = made_once(tally)[1]
    ran = run_tool(tally, "lintian", "--allow-root", "--fail-on", "error,warning", path)
    tally.holds(ran.returncode == 0, f"lintian: {ran.stdout!r} {ran.stderr!r}")


def needs_dpkg(check: Check) -> Check:
    """Leaves a check out where there is no dpkg-deb."""

    def body(tally: Tally) -> None:
        if shutil.which("dpkg-deb"):
            check.body(tally)
        else:
            print(f"left out: {check.name}, for want of dpkg-deb")

    return check._replace(body=body, may_be_empty=True)


CHECKS = [
    needs_dpkg(check_of(body))
    for body in (
        refuses_an_unproved_program,
        refuses_a_program_of_other_sources,
        has_both_programs,
        has_the_same_bytes,
        has_version_and_licence,
        runs_the_packaged_program,
        has_its_commands,
        needs_what_it_runs,
        has_no_part_that_builds,
        lintian_is_content,
    )
]
