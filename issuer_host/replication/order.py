"""Queues script commands and sets statuses, each line once.

usage: order --socket PATH .. [--number TEXT] < LINES
       order --node-file NODE.json .. [--reach COMMAND] [--number TEXT] [--first N] < LINES
       order --config FILE --journal NAME [--service UNIT ..] [--queued N] [--program PATH] < LINES

The lines have the forms `Q PAN PSN HEX` and `S PAN PSN DIGIT`. They don't go through a queue, which may repeat them: a
command that is put twice is queued twice, and a late status undoes a later one. It prints the answers.

With --socket the gateway, a bridge or a node puts them to its host while that runs. Nothing stops. A gateway has one
socket for all its partitions. Of a partition behind a broker name the sockets of both bridges: the one that serves
takes the lines, one after another.

--node-file  the file of this machine's node, or of all nodes that have sockets here. Each line goes to the partition of
             its card, at the machine that serves it. If it is gone, the line
             wakes the next one, and waits for it for 90 s at most
--reach      a command that orders at another machine: in it {} stands for that machine's name. It gets the line,
             --number and --first: ssh {} issuer-order --node-file /etc/issuer/node.json
--first      the number of the first line in its order (1)

--number   the order's number: letters, digits and hyphens, 40 at most. It is printed first if it is left out. A line
           with a number that was done isn't put again: the same call after an interruption tells what became of it

The status is 0 if each line was done, then or before; 1 otherwise, and the lines after the first that wasn't aren't
put.

Without --socket the program puts them over journals that no host serves, and the cards are compared before and after.

--service  units that are stopped before; those that ran are started after, however this command ends. Their requests
           wait in the queue meanwhile. Without it no host may run
--queued   refuses unless the one card of the lines has had so many commands: then the same call can be made again after
           an interruption

A second order on the same journals is refused while one runs. The status is 0 if each line was done, and the cards'
`queued` and `status` changed by these lines and nothing else; 1 if something is refused or differs, with what differs.
Then look before you order again. A card whose status an interrupted decline of its account has left gets it back first.
"""
import os
import sys

from issuer_host.facts.refusal import Refusal, tell
from issuer_host.orders import client
from issuer_host.orders.order_types import is_number, words_of

SOCKET, NUMBER = "--socket", "--number"


def plain(words: list[str]) -> "tuple[list[str], str] | None":
    """Returns the sockets and the number of `--socket PATH ..` with or without `--number TEXT`; None of other words.

    Those are argparse's, whose import takes longer than an order.
    """
    number = ""
    if NUMBER in words[-2:-1]:
        *words, _, number = words
    sockets = words[1:]
    is_plain = words[:1] == [SOCKET] and sockets and not any(word.startswith("-") for word in (*sockets, number))
    return (sockets, number) if is_plain else None


def lines_of(text: str) -> list[str]:
    """Returns the lines of an order. Nothing is ordered if one of them has another form."""
    lines = text.splitlines()
    if not lines:
        raise Refusal("there is no line")
    for at, line in enumerate(lines, 1):
        if not words_of(line):
            raise Refusal(f"line {at} has neither the form Q nor S; nothing was ordered")
    return lines


def begun(number: str) -> tuple[str, list[str]]:
    """Returns the number and the lines of an order that is put to who runs hosts."""
    if number and not is_number(number):
        raise Refusal("the number is letters, digits and hyphens, 40 at most; nothing was ordered")
    lines = lines_of(sys.stdin.read())
    if not number:
        number = os.urandom(8).hex()
        tell("order", f"its number is {number}")
    return number, lines


def order(words: list[str]) -> None:
    found = plain(words)
    if found is None:
        from issuer_host.orders import arguments, offline

        options = arguments.options_of(words, __doc__)
        if options.node_file:
            from issuer_host.replication import node_orders

            number, lines = begun(options.number or "")
            client.order(node_orders.taker_of(options.node_file, options.reach), number, lines, options.first)
            return
        if not options.socket:
            offline.order(options, lines_of(sys.stdin.read()))
            return
        found = options.socket, options.number or ""
    number, lines = begun(found[1])
    client.order(client.SocketTaker(found[0]), number, lines)


def main(words: list[str]) -> int:
    os.umask(0o077)
    try:
        order(words)
    except Refusal as refusal:
        tell("order", str(refusal))
        return 1
    except OSError as fault:
        tell("order", f"{fault.filename or 'the system'}: {fault.strerror}")
        return 1
    return 0
