"""What stands beside the hosts, by the gateway's arguments: the spool of advices, the log of messages, the account."""

import argparse
from typing import TYPE_CHECKING

from issuer_host.gateway.account import Account
from issuer_host.gateway.account_links import check_place, linked
from issuer_host.gateway.account_order import AccountOrder
from issuer_host.gateway.advices import Advices, Memory
from issuer_host.gateway.gateway import Gateway
from issuer_host.gateway.message_log import MessageLog
from issuer_host.gateway.options import HTTP_DIALECT, LOOPBACK, ORDERS, SILENCES, BadOptions, dialect_of
from issuer_host.gateway.spool import SpoolQueue, SpoolWriter

# At the end HTTP requests have so much longer than their time limit.
END_SECONDS = 1.0

if TYPE_CHECKING:
    from issuer_host.gateway.http_port import HttpPort


def add_to(gateway: Gateway, options: argparse.Namespace) -> None:
    """Adds to a gateway what its arguments name."""
    spool = None
    if options.spool:
        memory, seconds = Memory(), gateway.limits.seconds
        spool = SpoolQueue(gateway.loop, SpoolWriter(options.spool), memory, seconds, gateway.limited.tell)
        spool.not_stored = gateway.figures.not_stored
        gateway.handler.advices = Advices(spool, memory)
        gateway.beside.append(spool)
    if options.trace:
        log = MessageLog(gateway.loop, options.trace, options.partitions)
        gateway.handler.log = log
        gateway.beside.append(log)
    if options.account:
        account = account_of(gateway, options, spool)
        gateway.handler.order = AccountOrder(account, options.account_order == ORDERS[1])
        gateway.beside.append(account)

    if options.http:
        gateway.servers.append(http_port_of(gateway, options))


def http_port_of(gateway: Gateway, options: argparse.Namespace) -> "HttpPort":
    """The port of HTTP, by `[ADDRESS:]PORT[=DIALECT]` or `unix:PATH[=DIALECT]`."""
    try:
        from issuer_host.gateway import http_port
    except ImportError as fault:
        raise BadOptions(f"--http needs {fault.name}: install python3-aiohttp") from fault
    place, _, name = options.http.partition("=")
    dialect = dialect_of(name or HTTP_DIALECT)
    path = place[len(http_port.UNIX) :] if place.startswith(http_port.UNIX) else ""
    address, _, port = place.rpartition(":")
    address = address or LOOPBACK
    if not path and (not port.isdecimal() or int(port) > 65535):
        raise BadOptions(f"--http is [ADDRESS:]PORT or unix:PATH, perhaps with =DIALECT, and not {options.http}")
    if not path and not http_port.is_loopback(address) and not options.http_anywhere:
        raise BadOptions(
            f"whoever reaches {address} by HTTP could ask for approvals, as no peer shows a certificate: put a proxy"
            " with TLS before the loopback, or say --http-anywhere"
        )
    found = http_port.HttpPlace(path, address, 0 if path else int(port), dialect)
    return http_port.HttpPort(gateway.loop, found, gateway.handler, gateway.limits.seconds + END_SECONDS)


def account_of(gateway: Gateway, options: argparse.Namespace, spool: "SpoolQueue | None") -> Account:
    """The account, which is connected when the gateway begins."""
    seconds = options.account_milliseconds / 1000
    if not 0 < seconds < gateway.limits.seconds:
        raise BadOptions("--account-milliseconds is above 0, and less than --seconds: the host needs time too")
    try:
        check_place(options.account)
        is_table = options.account_silent == SILENCES[1]
        found = Account(gateway.loop, seconds, is_table, gateway.figures, gateway.limited, spool)
        found.connect = linked(gateway.loop, options.account, found)
    except ValueError as wrong:
        raise BadOptions(str(wrong)) from wrong
    return found
