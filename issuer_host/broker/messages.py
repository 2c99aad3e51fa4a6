"""What goes through a partition's queue: requests, and accounts' declines, which are three lines each."""
from collections.abc import Sequence

from issuer_host.facts.refusal import Refusal
from issuer_host.facts.request_lines import DECIDE, pan_of_line
from issuer_host.orders.declines import LINES, decline_of


def messages_of(lines: Sequence[str]) -> list[str]:
    """Returns the messages that lines are. It refuses those that can't go through a queue."""
    found = []
    at = 0
    while at < len(lines):
        body = "\n".join(lines[at : at + LINES])
        if decline_of(body.encode("utf-8")):
            found.append(body)
            at += LINES
            continue
        check(lines[at], at + 1)
        found.append(lines[at])
        at += 1
    return found


def check(line: str, number: int) -> None:
    """Refuses a line that is no request, before anything is sent."""
    if not line.startswith(f"{DECIDE} "):
        what = f"isn't of the form A, and begins no account's decline (lines {number} to {number + LINES - 1})"
        raise Refusal(f"line {number} {what}; deploy/order puts Q and S lines")
    try:
        pan_of_line(line)
    except ValueError as fault:
        raise Refusal(f"line {number}: {fault}") from fault
