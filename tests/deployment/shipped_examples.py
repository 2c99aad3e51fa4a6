"""The examples of the package, each taken by what it is for; and what units say of files that are missing."""
import os
import re
import shutil
import tempfile

from checks import Tally, check_of
from deployment.running import run, run_tool
from deployment.service import unit_of
from issuer_host.facts.paths import HOME
from issuer_host.replication import node_file
from issuer_host.status import sources
from runs import content_of, write_text

EXAMPLES = os.path.join(HOME, "deploy/examples")
ALERTS = "/usr/share/doc/issuer/examples/alerts.yml"
# By unit: the files without which it can't start.
NEEDED = {
    "issuer@.service": ("/etc/issuer/%i.json", "/etc/issuer/broker"),
    "issuer-standby@.service": ("/etc/issuer/%i.json", "/etc/issuer/broker"),
    "issuer-gateway.service": ("/etc/issuer/*.json",),
    "issuer-node.service": ("/etc/issuer/node.json", "/etc/issuer/broker", "/etc/issuer/cluster-key"),
    "issuer-backup@.service": ("/etc/issuer/%i.json",),
    "issuer-status.service": ("/etc/issuer/status",),
}


def a_first_request_is_answered(tally: Tally) -> None:
    """Template and cards of the examples make a configuration by which the first request is approved."""
    with tempfile.TemporaryDirectory() as folder:
        files = ["--cards", f"{EXAMPLES}/cards.csv", "--template", f"{EXAMPLES}/template.json", "--to", folder]
        ran = run(tally, "partition", "--of", "1", *files, "--program", tally.program)
        tally.expect((ran.returncode, ran.stderr), (0, ""), "a partition of the examples")
        words = ["--config", f"{folder}/0.json", "--journal", f"{folder}/journal", "--requests"]
        start = ["--begin", "--program", tally.program, "serve", *words, f"{EXAMPLES}/first-request"]
        ran = run(tally, "issuer-run", *start)
        tally.holds(ran.returncode == 0 and ran.stdout.startswith("fresh 0 0 yes 3030 "), f"{ran.stdout} {ran.stderr}")
        line = content_of(f"{EXAMPLES}/first-request")
        tally.expect(line, content_of(os.path.join(HOME, "examples/requests")).splitlines(True)[0], "the first request")


def files_of_services_are_read(tally: Tally) -> None:
    """Services read the examples of their files, and so does Prometheus."""
    node = node_file.read(f"{EXAMPLES}/node.json")
    unit = unit_of("issuer-node.service")
    folder = os.path.dirname(node.broker_file)
    tally.holds(f"-t {folder} /etc/issuer/*.json" in unit, f"the unit copies no file to {folder}")
    tally.holds(10000 <= node.figures < 11000 and "tcp:10000-10999" in unit, "the port of the figures")
    found = sources.read(f"{EXAMPLES}/status")
    tally.expect([one.name for one in found], ["issuer-gateway"], "the sources that the example of status has")
    every = [line.lstrip("#") for line in content_of(f"{EXAMPLES}/status").splitlines() if "http://" in line]
    lines = [line for line in every if re.fullmatch(r"\S+ http://\S+", line)]
    tally.expect(len(sources.sources_of("status", lines)), 6, "the sources of all forms")
    if not shutil.which("promtool"):
        print("left out: prometheus.yml, for want of promtool")
        return
    with tempfile.TemporaryDirectory() as room:
        text = content_of(f"{EXAMPLES}/prometheus.yml")
        tally.expect(text.count(ALERTS), 1, "the rules that it names")
        write_text(room, "prometheus.yml", text.replace(ALERTS, os.path.join(HOME, "deploy/alerts.yml")))
        ran = run_tool(tally, "promtool", "check", "config", f"{room}/prometheus.yml")
        tally.holds(ran.returncode == 0, f"promtool: {ran.stdout} {ran.stderr}")


def a_missing_file_is_named_once(tally: Tally) -> None:
    """A unit asserts each file without which it can't start: in place of starts without end one sentence names it."""
    for name, files in NEEDED.items():
        found = re.findall(r"(?m)^AssertPathExists(?:Glob)?=(.*)$", unit_of(name))
        tally.expect(tuple(found), files, f"what {name} asserts")
        loaded = re.findall(r"(?m)^LoadCredential=\w+:(.*)$", unit_of(name))
        tally.expect(set(loaded) - set(found), set(), f"what {name} loads, and doesn't assert")
    encrypted = content_of(os.path.join(HOME, "deploy/units/encrypted-configuration.conf"))
    found = re.findall(r"(?m)^AssertPathExists=(.*)$", encrypted)
    tally.expect(found, ["", "/etc/issuer/%i.cred", "/etc/issuer/broker"], "what the drop-in asserts in their place")


CHECKS = [
    check_of(body) for body in (a_first_request_is_answered, files_of_services_are_read, a_missing_file_is_named_once)
]
