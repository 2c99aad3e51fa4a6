"""The gateway's command-line arguments."""

import argparse
import json
import os
import ssl
from typing import NoReturn, Optional

from issuer_host.facts.paths import HOME
from issuer_host.files.private_files import check_secret
from issuer_host.gateway.dialect import Dialect
from issuer_host.gateway.dialect_file import BadDialect, named, read_dialect, shipped_in
from issuer_host.gateway.dialler import DialledPlace
from issuer_host.gateway.frames import GREATEST_FRAME
from issuer_host.gateway.gateway import Bounds, Listener
from issuer_host.gateway.plans import PlanningCodec

DIALECTS = os.path.join(HOME, "deploy", "dialects")
LISTEN = "8583=1987-ascii"
LOOPBACK = "127.0.0.1"
# The number of a partition in the names of its configuration and its journals.
NUMBER = "{}"
# The dialect whose codes HTTP has, if none is named.
HTTP_DIALECT = "1987-ascii"
# What becomes of a request whose account is silent; and who is asked first.
SILENCES, ORDERS = ("decline", "table"), ("account-first", "cryptogram-first")


class BadOptions(Exception):
    """Arguments that don't fit, and what to do."""


def parser_of(usage: str) -> argparse.ArgumentParser:
    bounds = Bounds()
    parser = argparse.ArgumentParser(usage=usage, add_help=False)
    parser.add_argument("--config")
    parser.add_argument("--journal")
    parser.add_argument("--partitions", type=int, default=1)
    parser.add_argument("--callers", type=int, default=1)
    parser.add_argument("--window", type=int, default=64)
    parser.add_argument("--broker-file")
    parser.add_argument("--orders", default="")
    parser.add_argument("--last-run", default="")
    parser.add_argument("--spool", default="")
    parser.add_argument("--trace", default="")
    parser.add_argument("--http", default="")
    parser.add_argument("--http-anywhere", action="store_true")
    parser.add_argument("--account", default="")
    parser.add_argument("--account-milliseconds", type=int, default=500)
    parser.add_argument("--account-silent", choices=SILENCES, default=SILENCES[0])
    parser.add_argument("--account-order", choices=ORDERS, default=ORDERS[0])
    parser.add_argument("--listen", action="append")
    parser.add_argument("--connect", action="append")
    parser.add_argument("--tls-certificate")
    parser.add_argument("--tls-key")
    parser.add_argument("--tls-clients")
    parser.add_argument("--tls-names", action="append")
    parser.add_argument("--tls-revoked")
    parser.add_argument("--seconds", type=float, default=bounds.seconds)
    parser.add_argument("--in-flight", type=int, default=bounds.in_flight)
    parser.add_argument("--of-connection", type=int, default=bounds.of_connection)
    parser.add_argument("--connections", type=int, default=bounds.connections)
    parser.add_argument("--of-address", type=int, default=bounds.of_address)
    parser.add_argument("--handshakes", type=int, default=bounds.handshakes)
    parser.add_argument("--silent-seconds", type=float, default=bounds.silent_seconds)
    parser.add_argument("--handshake-seconds", type=float, default=bounds.handshake_seconds)
    parser.add_argument("--frame", type=int, default=bounds.frame)
    parser.add_argument("--frame-seconds", type=float, default=bounds.frame_seconds)
    parser.add_argument("--idle-seconds", type=float, default=bounds.idle_seconds)
    parser.add_argument("--figures", type=int, default=0)
    parser.add_argument("--program")
    # (argparse ends with the status of a configuration)
    parser.error = refuse  # type: ignore[assignment]
    return parser


def refuse(message: str) -> NoReturn:
    raise BadOptions(message)


def bounds_of(options: argparse.Namespace) -> Bounds:
    found = Bounds(
        frame=options.frame,
        of_connection=options.of_connection,
        in_flight=options.in_flight,
        connections=options.connections,
        of_address=options.of_address,
        handshakes=options.handshakes,
        silent_seconds=options.silent_seconds,
        handshake_seconds=options.handshake_seconds,
        seconds=options.seconds,
        frame_seconds=options.frame_seconds,
        idle_seconds=options.idle_seconds,
    )
    if not 64 <= found.frame <= GREATEST_FRAME:
        raise BadOptions(f"--frame is 64 to {GREATEST_FRAME}")
    counts = found.of_connection, found.in_flight, found.connections, found.of_address, found.handshakes
    if min(*counts, options.window, options.partitions) < 1:
        raise BadOptions(
            "--of-connection, --in-flight, --connections, --of-address, --handshakes, --window and --partitions"
            " are 1 at least"
        )
    times = found.seconds, found.frame_seconds, found.silent_seconds, found.handshake_seconds
    if min(times) <= 0 or found.idle_seconds < 0:
        raise BadOptions(
            "--seconds, --frame-seconds, --silent-seconds and --handshake-seconds are above 0,"
            " and --idle-seconds 0 at least"
        )
    return found


def listeners_of(options: argparse.Namespace) -> list[Listener]:
    return [listener_of(text) for text in options.listen or ([] if options.connect else [LISTEN])]


def places_of(options: argparse.Namespace) -> list[DialledPlace]:
    """Who is dialled: each as often as it is named."""
    return [dialled_of(text) for text in options.connect or ()]


def dialled_of(text: str) -> DialledPlace:
    """The place of `HOST:PORT=DIALECT`."""
    place, _, name = text.partition("=")
    host, _, port = place.rpartition(":")
    if not name or not host or not port.isdecimal() or not 0 < int(port) <= 65535:
        raise BadOptions(f"--connect is HOST:PORT=DIALECT, and not {text}")
    return DialledPlace(host.strip("[]"), int(port), PlanningCodec(dialect_of(name)))


def listener_of(text: str) -> Listener:
    """The listener of `[ADDRESS:]PORT=DIALECT`."""
    place, _, name = text.partition("=")
    address, _, port = place.rpartition(":")
    if not name or not port.isdecimal() or int(port) > 65535:
        raise BadOptions(f"--listen is [ADDRESS:]PORT=DIALECT, and not {text}")
    return Listener(address or LOOPBACK, int(port), PlanningCodec(dialect_of(name)))


def dialect_of(name: str) -> Dialect:
    try:
        return read_dialect(named(name, DIALECTS))
    except BadDialect as wrong:
        shipped = ", ".join(shipped_in(DIALECTS))
        raise BadOptions(f"{wrong}; shipped are {shipped}") from wrong


def tls_of(options: argparse.Namespace) -> Optional[ssl.SSLContext]:
    """TLS by which peers have to show a certificate, or None."""
    given = options.tls_certificate, options.tls_key, options.tls_clients
    if given == (None, None, None):
        if options.tls_names or options.tls_revoked:
            raise BadOptions("--tls-names and --tls-revoked are for TLS: give its certificate, key and authorities too")
        return None
    if None in given:
        raise BadOptions("TLS needs all three: --tls-certificate, --tls-key and --tls-clients")
    check_secret(options.tls_key, "file of the TLS key", "key")
    try:
        context = ssl.create_default_context(ssl.Purpose.CLIENT_AUTH, cafile=options.tls_clients)
        context.load_cert_chain(options.tls_certificate, options.tls_key)
    except (OSError, ssl.SSLError) as fault:
        raise BadOptions(f"the certificates can't be used: {fault}") from fault
    context.verify_mode = ssl.CERT_REQUIRED
    context.minimum_version = ssl.TLSVersion.TLSv1_2
    if options.tls_revoked:
        refuse_revoked(context, options.tls_revoked)
    return context


def dialling_tls_of(options: argparse.Namespace) -> Optional[ssl.SSLContext]:
    """TLS for links that are dialled, by the same files, or None.

    A peer has to show a certificate with its host's name, or with one of --tls-names if there are some.
    """
    if options.tls_clients is None:
        return None
    try:
        context = ssl.create_default_context(ssl.Purpose.SERVER_AUTH, cafile=options.tls_clients)
        context.load_cert_chain(options.tls_certificate, options.tls_key)
    except (OSError, ssl.SSLError) as fault:
        raise BadOptions(f"the certificates can't be used: {fault}") from fault
    context.check_hostname = not options.tls_names
    context.minimum_version = ssl.TLSVersion.TLSv1_2
    if options.tls_revoked:
        refuse_revoked(context, options.tls_revoked)
    return context


def refuse_revoked(context: ssl.SSLContext, path: str) -> None:
    """Refuses the certificates of a list of revoked ones (CRL), and all certificates once that list has expired."""
    try:
        context.load_verify_locations(cafile=path)
    except (OSError, ssl.SSLError) as fault:
        raise BadOptions(f"the list of revoked certificates {path} can't be used: {fault}") from fault
    if not context.cert_store_stats()["crl"]:
        raise BadOptions(f"{path} has no list of revoked certificates (CRL) in PEM")
    context.verify_flags |= ssl.VERIFY_CRL_CHECK_LEAF


def partition_files(options: argparse.Namespace) -> list[tuple[str, str]]:
    """The configuration and the journals' name of each partition."""
    config, journal = options.config, options.journal
    if not config or not journal:
        raise BadOptions("give --config and --journal, or --broker-file")
    has_numbers = NUMBER in config and NUMBER in journal
    if options.partitions > 1 and not has_numbers:
        raise BadOptions(f"with --partitions both names have {NUMBER} where the partition's number goes")
    found = []
    for number in range(options.partitions):
        files = config.replace(NUMBER, str(number)), journal.replace(NUMBER, str(number))
        check_partition(files[0], number, options.partitions)
        found.append(files)
    return found


def check_partition(config: str, number: int, partitions: int) -> None:
    """Refuses a configuration that was made for another number of partitions. The program judges the rest."""
    try:
        with open(config, encoding="utf-8") as text:
            named_as = json.load(text).get("partition")
    except OSError as fault:
        raise BadOptions(f"the configuration {config} can't be read: {fault.strerror}") from fault
    except (ValueError, AttributeError):
        return
    if named_as is not None and named_as != {"number": number, "of": partitions}:
        raise BadOptions(f"{config} says that it is {named_as}, and this would be number {number} of {partitions}")
