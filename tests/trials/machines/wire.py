"""A wire in user space between two interfaces, by which frames are lost or late: kernels may have no netem.

usage: wire.py MACHINE BRIDGE LOST_OUT LOST_IN SECONDS

MACHINE and BRIDGE are interfaces: what comes at one leaves at the other. LOST_OUT is the share of frames that are lost
of those that the machine sends, LOST_IN that of those which are sent to it, and SECONDS is how late each of the others
is. It runs until it is killed.
"""
import contextlib
import heapq
import random
import select
import socket
import sys
import time
from collections.abc import Sequence
from typing import NamedTuple

# Of <linux/if_packet.h> and <linux/if_ether.h>: frames come with what the sender left undone, as sums and segments.
ALL, OF_PACKETS, WITH_HEADER, NO_OWN = 3, 263, 15, 23
MOST_BYTES = 1 << 17
ROOM = 8 << 20
WAIT_SECONDS = 0.5


class WireSettings(NamedTuple):
    """What a wire loses, and how late it is."""

    lost_out: float
    lost_in: float
    seconds: float


def opened(interface: str) -> socket.socket:
    found = socket.socket(socket.AF_PACKET, socket.SOCK_RAW, socket.htons(ALL))
    found.setsockopt(OF_PACKETS, WITH_HEADER, 1)
    found.setsockopt(OF_PACKETS, NO_OWN, 1)
    found.setsockopt(socket.SOL_SOCKET, socket.SO_RCVBUF, ROOM)
    found.bind((interface, 0))
    found.setblocking(False)
    return found


def carry(machine: socket.socket, bridge: socket.socket, settings: WireSettings, dice: random.Random) -> None:
    """Carries frames, for ever."""
    late: list[tuple[float, int, socket.socket, bytes]] = []
    count = 0
    ways = {machine: (bridge, settings.lost_out), bridge: (machine, settings.lost_in)}
    while True:
        wait = min(max(late[0][0] - time.monotonic(), 0.0), WAIT_SECONDS) if late else WAIT_SECONDS
        for came in select.select([machine, bridge], [], [], wait)[0]:
            to, lost = ways[came]
            with contextlib.suppress(OSError):
                frame = came.recv(MOST_BYTES)
                if dice.random() >= lost:
                    count += 1
                    heapq.heappush(late, (time.monotonic() + settings.seconds, count, to, frame))
        while late and late[0][0] <= time.monotonic():
            _, _, to, frame = heapq.heappop(late)
            # (one that the other side has no room for is lost)
            with contextlib.suppress(OSError):
                to.send(frame)


def main(words: Sequence[str]) -> None:
    machine, bridge = words[:2]
    carry(opened(machine), opened(bridge), WireSettings(*map(float, words[2:5])), random.Random(machine))


if __name__ == "__main__":
    main(sys.argv[1:])
