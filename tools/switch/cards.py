"""Software cards as a switch meets them: the message that a tap makes, and what the card says of the response."""

import importlib.machinery
import importlib.util
import os
from typing import Any, NamedTuple, Optional

from switch.messages import HOME, Codec, Message


def card_tool() -> Any:
    """tools/card, as a module: it has no ending."""
    loader = importlib.machinery.SourceFileLoader("card_tool", os.path.join(HOME, "tools/card"))
    spec = importlib.util.spec_from_loader(loader.name, loader)
    assert spec is not None
    module = importlib.util.module_from_spec(spec)
    loader.exec_module(module)
    return module


TOOL = card_tool()

# What a message has beside the card's data: a purchase at one terminal.
PROCESSING, MERCHANT_TYPE, CHIP_ENTRY = (
    "000000",
    "5999",
    {"1987": "051", "1993": "510101513346", "2003": "510101513346"},
)
TERMINAL, MERCHANT, CURRENCY = "TERM0001", "MERCHANT0000001", "978"
# The places of an amount with its currency.
LONG_AMOUNT = 16
# The objects that a message has in elements 2 and 23, and not in 55.
BESIDE = ("5a", "5f34")
APPROVED = {"1987": "00", "1993": "000", "2003": "0000"}


def cards_of(config: str, dki: Optional[int] = None) -> list[Any]:
    """A new card for each that a configuration has, with triple DES keys."""
    with open(config, "rb") as text:
        issuer = TOOL.read_configuration(text.read())
    chosen = next(iter(issuer.key_sets)) if dki is None else dki
    suite = TOOL.SUITES["triple-des"]
    return [TOOL.Card(info, issuer.keys_of(info, chosen, suite), chosen) for info in issuer.cards]


def tlv(tag: str, value: bytes) -> str:
    return f"{tag}{len(value):02x}{value.hex()}"


def request_of(codec: Codec, tapped: Any, number: int, is_repeat: bool = False) -> Message:
    """The message of a tap: `number` goes into the trace number and the reference number, by which it is answered."""
    stan, reference = f"{number % 1_000_000:06d}", f"{number % 10**12:012d}"
    line = TOOL.line_of(tapped).decode().removeprefix("A ")
    chip = "".join(tlv(tag, value) for tag, value in TOOL.objects(bytes.fromhex(line)) if tag not in BESIDE)
    amount, date = tapped.amount.hex(), tapped.date.hex()
    message: Message = {"type": f"{codec.version}10{int(is_repeat)}", 2: tapped.pan, 3: PROCESSING, 4: amount}
    message |= {7: f"{date[2:]}120000", 11: stan, 18: MERCHANT_TYPE, 22: CHIP_ENTRY[codec.edition]}
    century = "20" * (codec.edition == "2003")
    message |= {12: "120000", 13: date[2:]} if codec.edition == "1987" else {12: f"{century}{date}120000", 24: "100"}
    message |= {23: f"0{tapped.psn}", 37: reference, 41: TERMINAL, 42: MERCHANT, 49: CURRENCY, 55: chip}
    if codec.formats[4].size == LONG_AMOUNT:
        message[4] = f"{message.pop(49)}2{amount}"
    # (a dialect may lack what the gateway doesn't need)
    return {it: value for it, value in message.items() if it == "type" or it in codec.formats}


def repeat_of(message: Message) -> Message:
    return message | {"type": message["type"][:3] + "1"}


def network_request(codec: Codec, number: int) -> Message:
    """An echo test."""
    stan = f"{number % 1_000_000:06d}"
    if codec.edition == "1987":
        return {"type": "0800", 7: "0115120000", 11: stan, 70: "301"}
    century = "20" * (codec.edition == "2003")
    return {"type": f"{codec.version}804", 11: stan, 12: f"{century}260115120000", 24: "831"}


class Verdict(NamedTuple):
    """What a card says of a response."""

    is_right: bool
    text: str
    commands: list[str]


def verdict_of(card: Any, codec: Codec, response: Message) -> Verdict:
    """Gives a response to the card whose open transaction it answers: the ARPC first, and then the script commands."""
    approves = response[39] == APPROVED[codec.edition]
    try:
        data = bytes.fromhex(response.get(55, ""))
        found = dict(TOOL.objects(data))
        commands = TOOL.commands_in(data)
    except (TOOL.Refused, ValueError):
        found, commands = {}, []
    code = found.get("8a", b"")
    if not card.authenticate(found.get("91", b""), code):
        return Verdict(False, "the issuer's cryptogram is WRONG, and nothing is run", [])
    said = f"{'approved' if approves else 'declined'}, response code {code.hex()}; the issuer's cryptogram is right"
    run = [f"{TOOL.command_in(it).hex()}: {'run' if card.run(it) else 'its MAC is WRONG, not run'}" for it in commands]
    return Verdict(not card.failed, said, run)


def differences(codec: Codec, request: Message, response: Message) -> list[str]:
    """What a response lacks that it should have of its request: its type, and the elements that it echoes."""
    kind = request["type"]
    expected: Message = {"type": f"{kind[:2]}{int(kind[2]) + 1}{int(kind[3]) // 2 * 2}"}
    expected |= {it: request[it] for it in codec.rules["echo"] if it in request}
    if "header" in request or codec.headers:
        expected["header"] = codec.answered_header(request.get("header", codec.own_header()))
    odd = {it: value for it, value in expected.items() if response.get(it) != value}
    return [f"{it} is {response.get(it)}, and {value} was expected" for it, value in odd.items()]
