"""Request lines as a terminal's chip data make them."""
from oracle.cards import application_cryptogram, tlv
from oracle.chip_data import Request
from oracle.suites import Suite


def field_objects(request: Request) -> list[tuple[str, bytes]]:
    """Tag and value of each field of a request."""
    pan = request.pan + "f" * (len(request.pan) % 2)
    return [
        ("5a", bytes.fromhex(pan)),
        ("5f34", bytes.fromhex(request.psn)),
        ("82", request.aip),
        ("95", request.tvr),
        ("9a", request.date),
        ("9c", request.kind),
        ("9f02", request.amount),
        ("9f03", request.other),
        ("9f10", request.data),
        ("9f1a", request.country),
        ("5f2a", request.currency),
        ("9f26", request.cryptogram),
        ("9f27", bytes([request.cid])),
        ("9f36", request.atc.to_bytes(2, "big")),
        ("9f37", request.number),
    ]


def line_of(request: Request) -> bytes:
    """The line of a request, each object in its shortest form."""
    return b"A " + b"".join(tlv(tag, value) for tag, value in field_objects(request)).hex().encode()


def purchase(
    pan: str, atc: int, register: int = 0, count: int = 0, dki: int = 1, suite: Suite = Suite.TRIPLE_DES
) -> Request:
    """A purchase over 123.45 by a card that reports its last online transaction and the commands that it ran since."""
    data = (
        bytes([0x0F, suite.value, dki, 0xA0, 0, 0, count << 4, 0])
        + bytes(8)
        + b"\x0f"
        + register.to_bytes(2, "big")
        + bytes(13)
    )
    return Request(
        pan=pan,
        psn="00",
        aip=bytes.fromhex("3900"),
        atc=atc,
        tvr=bytes.fromhex("0000008000"),
        date=bytes.fromhex("260115"),
        kind=b"\0",
        amount=bytes.fromhex("000000012345"),
        other=bytes(6),
        country=bytes.fromhex("0276"),
        currency=bytes.fromhex("0978"),
        number=bytes.fromhex("1A2B3C4D"),
        cid=0x80,
        data=data,
        cryptogram=bytes(8),
    )


def signed(request: Request, master: bytes) -> Request:
    """The request with its right cryptogram."""
    return request._replace(cryptogram=application_cryptogram(master, request))


# Objects that terminals send beside a request's fields.
OTHER_OBJECTS = (
    "9F3303E0F8C8 9F34031E0300 9F350122 9F1E083132333435363738 8407A0000000041010 9F09020002 9F410400000123 00"
)
ORDER = ["5a", "9f26", "9f27", "9f10", "9f37", "9f36", "95", "9a", "9c", "9f02", "5f2a", "82", "9f1a"]


def long_line_of(request: Request) -> bytes:
    """The line of a request with tags that the host passes over, in another order, and without amount other and PSN."""
    values = dict(field_objects(request))
    text = b"".join(tlv(tag, values[tag]) for tag in ORDER).hex().upper()
    return f"A {text}{OTHER_OBJECTS.replace(' ', '')}".encode()
