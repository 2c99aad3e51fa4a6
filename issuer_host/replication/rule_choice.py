"""Which program decides by the rule of several machines: the proved one, or another that NODE.json names.

A node finds it as a start finds the host's program: in .build, with the record of its proof that names it. A node whose
NODE.json names a host's program, as a test's does, has the one that the gate built where none is proved.
"""
import os

from issuer_host.facts.paths import RULE
from issuer_host.facts.proof import is_proved
from issuer_host.facts.troubles import Level, say
from issuer_host.replication.node_file import NodeSettings
from issuer_host.replication.standby_run import TransientFault
from issuer_host.start.careful_start import is_proved_soon

NAME = "node"
NONE = (
    f"{RULE.path} isn't the program of a proof that is recorded beside it. Run ./issuer prove, or install the package"
)


def rule_path(node: NodeSettings) -> str:
    """Returns the path of the program that decides for a partition which begins. A TransientFault says that none is."""
    if node.rule:
        return node.rule
    if is_proved(RULE.path, name=RULE):
        return RULE.path
    if node.program and os.path.exists(RULE.gate_path):
        return RULE.gate_path
    raise TransientFault(NONE)


def has_rule(node: NodeSettings) -> bool:
    """Whether a program decides for this node, now or after an upgrade's last step. If none does, it says what to run.

    It reports a program of which nothing is proved.
    """
    if not node.rule and not node.program and not is_proved_soon(RULE):
        say(NAME, Level.ERROR, NONE)
        return False
    try:
        path = rule_path(node)
    except TransientFault as fault:
        say(NAME, Level.ERROR, str(fault))
        return False
    if not is_proved(path, name=RULE):
        say(NAME, Level.WARNING, f"{path} isn't the proved program: nothing is proved of what it decides")
    return True
