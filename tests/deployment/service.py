"""What deploy/ knows of the program, and its units, alert rules and dashboard, by the tools that judge them."""
import contextlib
import io
import os
import re
import shutil
import socket
import tempfile
from functools import partial

from checks import Check, Tally, check_of
from deployment.running import run_tool
from issuer_host.facts.answers import ANSWERS, REFUSALS, kind_of
from issuer_host.facts.limits import WINDOW
from issuer_host.facts.paths import HOME
from issuer_host.facts.request_lines import pan_of_line
from issuer_host.facts.statuses import NOT_RESTARTED, Status
from issuer_host.gateway.figures import GatewayFigures
from issuer_host.host.supervisor import LOAD_SECONDS
from issuer_host.orders.intent_log import WorkFile
from issuer_host.packaging.make_deb import DROP_INS, standby_of
from issuer_host.telling.figures import Figures, kinds_at
from runs import content_of, write_text

# The greatest exposure that `systemd-analyze security` may find.
EXPOSURE = 1.1
DEPLOY = os.path.join(HOME, "deploy")
# What tests/deployment/systemd runs inside its container.
OF_CONTAINER = os.path.join(HOME, "tests/deployment")
OF_ALL_UNITS = "token.conf"
# The disk of a partition, in memory.
MOUNT = "[Mount]\nWhat=tmpfs\nWhere=/var/lib/issuer/0\nType=tmpfs\n"
UNITS = ("issuer@.service", "issuer-standby@.service", "issuer-gateway.service", "issuer-node.service")
# The unit with a port for strangers, and which part of the machine's memory it may be given.
OPEN_UNIT, LEAST_MEMORY, MOST_MEMORY = "issuer-gateway.service", 25, 90
FIGURE = re.compile(r"\bissuer_\w+")
# Where the figures' names stand.
FIGURE_FILES = ("figures.py", "textfile.py", "broker_figures.py")


def unit_of(name: str) -> str:
    """The text of a unit: the standby's is made of the host's."""
    if name == "issuer-standby@.service":
        return standby_of(unit_of("issuer@.service"))
    return content_of(os.path.join(DEPLOY, "units", name))


def knows_lines_and_answers(tally: Tally) -> None:
    """deploy/ knows the card of each line of the examples, and the kind of each answer."""
    example = os.path.join(HOME, "examples/scripts")
    lines, answers = content_of(example).splitlines(), content_of(f"{example}.answers").splitlines()
    tally.expect(len(lines), len(answers), "the example's lines, and its answers")
    for line, answer in zip(lines, answers):
        tally.holds(re.fullmatch(r"40000000000000(02|10|28)", pan_of_line(line)), f"the PAN of {line[:40]}")
        tally.holds(kind_of(answer)[0] in ANSWERS, f"the kind of {answer[:40]}")


def knows_no_card_of_other_lines(tally: Tally) -> None:
    """A line that names no card is a ValueError."""
    for line in ("A 5A", "A 5A0840", "A 9F02", "A zz", "x", "A 820200005A8200"):
        try:
            tally.fail(f"{line} has the PAN {pan_of_line(line)}")
        except ValueError:
            tally.passed += 1


def standby_has_other_ports(tally: Tally) -> None:
    """The standby's unit differs from the host's, and has ports of its own for its figures."""
    host, standby = unit_of(UNITS[0]), unit_of(UNITS[1])
    tally.expect(standby.count("--second --figures 20000"), 1, "the standby's word and ports in its unit")
    tally.holds(host != standby, "the standby's unit is the host's")


def drop_in_is_right(drop_in: str, tally: Tally) -> None:
    """The service manager knows all of a drop-in, in the units that may have it."""
    if not shutil.which("systemd-analyze"):
        print(f"left out: {drop_in}, for want of systemd-analyze")
        return
    for name in UNITS if drop_in == OF_ALL_UNITS else UNITS[:2]:
        takes_drop_in(tally, drop_in, name)


def takes_drop_in(tally: Tally, drop_in: str, name: str) -> None:
    """The service manager takes a unit with a drop-in, and finds a line in it that is wrong."""
    text = content_of(os.path.join(DEPLOY, "units", drop_in))
    with tempfile.TemporaryDirectory() as folder:
        write_text(folder, name, re.sub("(?m)^ExecStart=.*", "ExecStart=/bin/true", unit_of(name)))
        write_text(folder, "var-lib-issuer-0.mount", MOUNT)
        os.mkdir(os.path.join(folder, f"{name}.d"))
        for more, said in (("", ""), ("Nonsense=1\n", "Unknown key")):
            write_text(folder, f"{name}.d/{drop_in}", text + more)
            unit = os.path.join(folder, name.replace("@", "@0"))
            ran = run_tool(tally, "systemd-analyze", "verify", "--man=no", unit)
            tally.holds(ran.returncode == 0 and (said in ran.stderr if said else not ran.stderr), ran.stderr)


def units_restart(tally: Tally) -> None:
    """A unit isn't restarted after a status with which it would end again."""
    for name in UNITS:
        found = re.search(r"^RestartPreventExitStatus=(.*)$", unit_of(name), re.MULTILINE)
        expected = [str(int(status)) for status in sorted(NOT_RESTARTED)]
        tally.expect(found and found[1].split(), expected, f"the statuses after which {name} isn't restarted")


def units_bound_memory(tally: Tally) -> None:
    """No unit's memory goes to a swap; the gateway, at whose port strangers are, takes a part of it at most."""
    for name in UNITS:
        tally.expect(re.findall("(?m)^MemorySwapMax=(.*)$", unit_of(name)), ["0"], f"the swap that {name} may take")
    found = re.findall("(?m)^MemoryMax=(.*)$", unit_of(OPEN_UNIT))
    percents = [int(word[:-1]) for word in found if re.fullmatch(r"\d{1,2}%", word)]
    is_bound = len(found) == len(percents) == 1 and LEAST_MEMORY <= percents[0] <= MOST_MEMORY
    tally.holds(is_bound, f"{OPEN_UNIT} has MemoryMax={found}: {LEAST_MEMORY}% to {MOST_MEMORY}%")


def scraping_is_right(tally: Tally) -> None:
    """Prometheus takes the page's example of what is scraped, and it has each job and label that the rules name."""
    page = content_of(os.path.join(HOME, "docs/operate/watch.md"))
    section = page.partition("\n## Figures\n")[2].partition("\n## ")[0]
    lines = re.findall(r"(?m)^ {6}(.*)$", section.partition("scrape_configs:")[2].partition("\n\n")[0])
    text = "\n".join(("scrape_configs:", *lines, ""))
    rules = content_of(os.path.join(DEPLOY, "alerts.yml"))
    jobs, named = (
        set(re.findall(pattern, one)) for pattern, one in ((r"job_name: (\w+)", text), (r'job="(\w+)"', rules))
    )
    tally.expect((named - jobs, bool(named)), (set(), True), "the jobs that rules name, and the page doesn't scrape")
    tally.holds("labels: {partition: " in text, "the targets have the label partition")
    if not shutil.which("promtool"):
        print("left out: the example of what is scraped, for want of promtool")
        return
    with tempfile.TemporaryDirectory() as folder:
        for more, is_taken in (("", True), ("nonsense: 1\n", False)):
            write_text(folder, "prometheus.yml", text + more)
            ran = run_tool(tally, "promtool", "check", "config", os.path.join(folder, "prometheus.yml"))
            tally.expect(ran.returncode == 0, is_taken, f"whether it is taken with {more!r}: {ran.stderr!r}")


def unit_is_right(name: str, tally: Tally) -> None:
    """systemd finds nothing wrong in a unit, and little exposure."""
    if not shutil.which("systemd-analyze"):
        print(f"left out: {name}, for want of systemd-analyze")
        return
    with tempfile.TemporaryDirectory() as folder:
        path = os.path.join(folder, name)
        write_text(folder, name, re.sub("^ExecStart=.*", "ExecStart=/bin/true", unit_of(name), flags=re.MULTILINE))
        ran = run_tool(tally, "systemd-analyze", "verify", "--man=no", path)
        tally.expect((ran.returncode, ran.stderr.strip()), (0, ""), f"what systemd says of {name}")
        ran = run_tool(tally, "systemd-analyze", "security", "--offline=true", path)
        found = re.search(r"Overall exposure level for \S+: ([0-9.]+)", ran.stdout)
        tally.holds(found and float(found[1]) <= EXPOSURE, f"{name} has exposure {found and found[1]}")


def alert_rules_are_right(tally: Tally) -> None:
    """Prometheus takes the alert rules, and they raise what their tests say."""
    if not shutil.which("promtool"):
        print("left out: the alert rules, for want of promtool")
        return
    for words in (["check", "rules", "alerts.yml"], ["test", "rules", "alerts_test.yml"]):
        ran = run_tool(tally, "promtool", *words, cwd=DEPLOY)
        tally.holds(ran.returncode == 0, f"the alert rules: {ran.stdout!r} {ran.stderr!r}")


def each_alert_is_raised(tally: Tally) -> None:
    """Each alert rule has a test that raises it, and one in which it isn't raised yet."""
    rules = re.findall(r"(?m)^ +- alert: (\w+)$", content_of(os.path.join(DEPLOY, "alerts.yml")))
    tests = re.findall(
        r"alertname: (\w+)(, exp_alerts: \[\]|\s+exp_alerts:\s+- exp_labels)",
        content_of(os.path.join(DEPLOY, "alerts_test.yml")),
    )
    for rule in rules:
        raised = {bool(what.split()[-1] != "[]") for name, what in tests if name == rule}
        tally.holds(True in raised, f"{rule}: no test raises it")
    tally.expect({name for name, _ in tests} - set(rules), set(), "tests of rules that don't exist")


def alerts_have_the_programs_numbers(tally: Tally) -> None:
    """The numbers in the alert rules are those of the program: refusals, the window, the statuses of an end."""
    text = content_of(os.path.join(DEPLOY, "alerts.yml"))
    known = {str(int(refusal)) for refusal in REFUSALS}
    named = set(re.findall(r'refusal="(\d+)"', text))
    tally.expect((named - known, bool(named)), (set(), True), "the refusals that rules name, and none answers")
    below = re.findall(r"ATC was (\d+) or more below", text)
    tally.expect(below, [str(WINDOW)], "how far an ATC is below its card's greatest")
    limit = re.search(
        r"(?m)^\| window of transaction counters \| (\d+);",
        content_of(os.path.join(HOME, "docs/formats/words-and-statuses.md")),
    )
    tally.expect(limit and limit[1], str(WINDOW), "the window in docs/formats/words-and-statuses.md")
    statuses = [str(int(status)) for status in sorted(NOT_RESTARTED)]
    said = re.findall(r"a status ([0-9, or]+) needs you", text)
    tally.expect([re.findall(r"\d+", one) for one in said], [statuses], "the statuses that need a person")
    loads = re.findall(r"issuer_host_start_seconds\) > (\d+)", text)
    tally.expect(loads, [str(int(LOAD_SECONDS))], "how long a start takes that loads little")
    early = re.findall(r"> (\d+)\n(?:.*\n){3}.* 80 % of (?:its|the) (\d+) ", text)
    tally.expect([int(most) for most, _ in early], [int(limit) * 4 // 5 for _, limit in early], "80 % of limits")
    tally.expect(len(early), 3, "rules that say of 80 %")
    for bytes_of, kibibytes in re.findall(r"unwritten_bytes\) > (\d+)(?:.*\n){5}.*?(\d+) KiB", text):
        tally.expect(int(bytes_of), 1024 * int(kibibytes), "how far a standby is behind, in the rule and in words")


def figures_told() -> set[str]:
    """The names of the figures that the bridge, the commands and the gateway write."""
    found = set()
    for name in FIGURE_FILES:
        text = content_of(os.path.join(HOME, "issuer_host/telling", name))
        found |= {match.strip('"') for match in re.findall(r'"issuer_\w+"', text)}
    return found | {name_of_figure(name) for name in re.findall(r"(?m)^# TYPE (\w+)", GatewayFigures(1).text())}


def name_of_figure(name: str) -> str:
    """A figure's name without the endings that Prometheus adds."""
    return re.sub("_(total|bucket|count)$", "", name)


def names_figures_that_exist(name: str, tally: Tally) -> None:
    """A file of deploy/ names only figures that something writes."""
    used = {name_of_figure(figure) for figure in FIGURE.findall(content_of(os.path.join(DEPLOY, name)))}
    tally.holds(used, f"{name} names no figure")
    tally.expect(used - figures_told(), set(), f"{name}: the figures that nothing writes")


def reports_by(name: str, folder: str) -> str:
    """What a service of this name writes where its figures, its disk and its file of begun work have faults."""
    journal = f"{folder}/{name.partition(':')[0]}/journal"
    said = io.StringIO()
    with socket.socket() as taken, contextlib.redirect_stderr(said):
        taken.bind(("127.0.0.1", 0))
        taken.listen()
        kinds_at(taken.getsockname()[1], name)
        Figures(0, journal, None, name).look_at_disk()
        WorkFile(journal, name).load()
    return said.getvalue()


def container_scripts_refuse_a_machine(tally: Tally) -> None:
    """What tests/deployment/systemd runs inside its container refuses to run anywhere else."""
    scripts = sorted(name for name in os.listdir(OF_CONTAINER) if name.endswith(".sh"))
    tally.holds(scripts, "there are scripts of the container")
    with tempfile.TemporaryDirectory() as folder:
        for name in scripts:
            # (the shell finds no command here but its own)
            words = ("/bin/bash", os.path.join(OF_CONTAINER, name))
            ran = run_tool(tally, *words, env={"PATH": folder}, cwd=folder)
            tally.expect(ran.returncode, Status.USAGE, f"{name}: the status, with {ran.stderr!r}")
            tally.holds("run tests/deployment/systemd" in ran.stderr, f"{name} says {ran.stderr!r}")


def reports_bear_the_services_name(tally: Tally) -> None:
    """What goes wrong with figures, disk and begun work is reported by the name of the service that has it."""
    with tempfile.TemporaryDirectory() as folder:
        for name in ("bridge", "gateway", "node: partition 3"):
            lines = reports_by(name, folder).splitlines()
            others = [line for line in lines if not line.startswith(f"{name}: ")]
            tally.expect((len(lines), others), (3, []), f"the lines of {name}, and those by another name")


CHECKS = [
    check_of(reports_bear_the_services_name),
    check_of(container_scripts_refuse_a_machine),
    *map(check_of, (knows_lines_and_answers, knows_no_card_of_other_lines, standby_has_other_ports, units_restart)),
    *(
        Check(f"unit_{name.partition('.')[0].strip('@')}", f"{name} by systemd", partial(unit_is_right, name), True)
        for name in UNITS
    ),
    *(
        Check(
            f"drop_in_{name.partition('.')[0]}",
            f"{name} by systemd",
            partial(drop_in_is_right, name),
            may_be_empty=True,
        )
        for name in DROP_INS
    ),
    check_of(units_bound_memory),
    check_of(scraping_is_right),
    check_of(alert_rules_are_right)._replace(may_be_empty=True),
    check_of(each_alert_is_raised),
    check_of(alerts_have_the_programs_numbers),
    *(
        Check(
            f"figures_of_{name.partition('.')[0]}",
            f"{name} names known figures",
            partial(names_figures_that_exist, name),
        )
        for name in ("alerts.yml", "dashboard.json")
    ),
]
