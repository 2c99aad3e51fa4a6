"""Takes authorisation requests in ISO 8583 from switches, asks the hosts, and answers in ISO 8583.

usage: gateway --config FILE --journal NAME [--partitions P] [--callers N] [--window N] [--program PATH] ..
       gateway --broker-file FILE --partitions P ..

By the first form it starts the hosts itself, each by issuer-run: one, or P of them, if FILE and NAME have {} where the
partition's number goes. By the second form the hosts are behind the broker that FILE names.

--listen         [ADDRESS:]PORT=DIALECT, as often as needed: a dialect is the name of a shipped one, or a file
                 (8583=1987-ascii on the loopback, if nobody is dialled)
--connect        HOST:PORT=DIALECT: a peer that the gateway dials, as often as there are to be connections to it; it
                 signs on, sends echo tests and signs off as the dialect says, and dials again after waits that grow
--tls-certificate, --tls-key, --tls-clients
                 files in PEM: peers have to show a certificate of one of the last one's authorities
--tls-names      a name that a peer's certificate has to have, as often as needed: its common name, or a DNS name of it
--tls-revoked    a file in PEM with the authority's list of revoked certificates (CRL)
--seconds        the time limit of a message (5). After it 91 or 907 is answered
--in-flight      messages in flight (1024), --of-connection of one connection (256)
--connections    in all (2000), --of-address of one address (512), --handshakes of TLS at a time (64)
--silent-seconds by TLS until a connection's first byte (3), --handshake-seconds of a handshake (5)
--frame          bytes of a message (4096), --frame-seconds for a torn frame, or for a peer that doesn't read (10),
--idle-seconds   after which a silent connection is closed (900; 0: never)
--callers        of each host (1), --window lines that a host has at a time (64)
--last-run       a file outside the journals' folder, with {} for the partition's number, that says which journals the
                 last run had: others are refused; none if it is left out
--orders         the path of a socket at which it takes orders (deploy/order --socket); none if it is left out
--spool          a folder in which advices and reversals are stored before they are acknowledged, as the dialect says
                 (deploy/advices gives them out); without it they are declined
--trace          NAME: each message gets a line in the file NAME.audit (deploy/trace finds it); none if it is left out
--http           [ADDRESS:]PORT, or unix:PATH: POST /authorise for own channels, as deploy/openapi.json says, perhaps
                 with =DIALECT for another one's codes than those of 1987-ascii. Other addresses than the loopback
                 need --http-anywhere
--account        where the account is asked of each request: unix:PATH, or http://127.0.0.1:PORT/PATH; nowhere if it is
                 left out. docs/integrate/account.md has what it is asked and told
--account-milliseconds
                 how long it may take (500); --account-silent what becomes of a request if it takes longer: decline, or
                 table: the host decides by its table alone (decline)
--account-order  account-first, or cryptogram-first: then it is asked of what the host approved (account-first)
--figures        the port of Prometheus' figures on the loopback; none where it is 0 (0)

docs/integrate/iso8583.md says what becomes of each message. At SIGTERM it answers what it has taken, and ends with 0.
It ends with a host's status if no host can be started, with 64 if its own arguments don't fit, and with 75 after what
passes.
"""

import argparse
import asyncio
from collections.abc import Sequence

from issuer_host.facts.refusal import Refusal
from issuer_host.facts.statuses import Status
from issuer_host.gateway import beside, options as options_of
from issuer_host.gateway.dialler import DialledLink
from issuer_host.gateway.gateway import Gateway, Partition
from issuer_host.gateway.log import NAME, fail
from issuer_host.gateway.options import BadOptions
from issuer_host.gateway.order_router import OrderRouter
from issuer_host.gateway.peer_names import PeerNames
from issuer_host.gateway.pipes import PipeHost
from issuer_host.host.command import StartOptions, serving_command
from issuer_host.host.line_host import HostSettings
from issuer_host.host.supervisor import moment_of


def main(words: Sequence[str]) -> int:
    if list(words) in (["--help"], ["-h"]):
        print(__doc__, end="")
        return Status.OK
    try:
        return asyncio.run(run(words))
    except BadOptions as wrong:
        fail(str(wrong))
        return Status.USAGE
    except Refusal as refusal:
        fail(str(refusal))
        return Status.REFUSED
    except OSError as fault:
        fail(f"{fault.filename or 'the address'}: {fault.strerror or fault}")
        return Status.PASSES


async def run(words: Sequence[str]) -> int:
    options = options_of.parser_of(__doc__).parse_args(words)
    listeners, bounds = options_of.listeners_of(options), options_of.bounds_of(options)
    context = options_of.tls_of(options)
    has_hosts = not options.broker_file
    is_ordered = has_hosts and options.callers == 1
    gateway = Gateway(asyncio.get_running_loop(), options.partitions, bounds, context, is_ordered, has_hosts)
    names = gateway.port.names = PeerNames(options.tls_names or ())
    gateway.dialler.context = options_of.dialling_tls_of(options)
    gateway.dialler.links = [DialledLink(place, names) for place in options_of.places_of(options)]
    beside.add_to(gateway, options)
    gateway.hosts = brokered(gateway, options) if options.broker_file else pipe_hosts(gateway, options)
    return await gateway.run(listeners, options.figures)


def brokered(gateway: Gateway, options: argparse.Namespace) -> list[Partition]:
    """The partitions behind the broker."""
    if options.orders:
        raise BadOptions("--orders is for hosts of the gateway's own: behind a broker the bridges take the orders")
    try:
        from issuer_host.gateway.broker_hosts import brokered_hosts
    except ImportError as fault:
        raise BadOptions(f"behind a broker the gateway needs {fault.name}: install python3-pika") from fault
    file, figures = options.broker_file, gateway.figures
    return [*brokered_hosts(gateway.loop, options.partitions, file, gateway.traffic, figures)]


def pipe_hosts(gateway: Gateway, options: argparse.Namespace) -> list[Partition]:
    """A host by pipes for each partition."""
    found: list[PipeHost] = []
    for number, (config, journal) in enumerate(options_of.partition_files(options)):
        start = StartOptions(options.program or "", last_run=options.last_run.replace(options_of.NUMBER, str(number)))
        command = serving_command(config, journal, options.callers, start)
        name = f"{NAME}: partition {number}"
        gateway.journals.append(journal)
        settings = HostSettings(
            command,
            journal,
            name,
            options.window,
            is_batched=True,
            log_later=gateway.logs.later,
            moment=moment_of(number),
        )
        found.append(PipeHost(gateway.loop, settings, gateway.traffic, gateway.figures.of_host(number, journal)))
    gateway.orders = OrderRouter(gateway.loop, options.orders, found)
    return [*found]
