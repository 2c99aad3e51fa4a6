"""What each refusal means in words, by its number. The host may name a tag, or another number, after it."""
from issuer_host.facts.answers import RefusalNumber

REASONS = {
    RefusalNumber.BAD_LINE: "the line has none of the forms, from this column on",
    RefusalNumber.BAD_TLV: "the chip data are torn at this offset",
    RefusalNumber.MISSING: "this tag is missing",
    RefusalNumber.BAD_FIELD: "this tag has a wrong length or wrong digits; of 9f10: it isn't of this host's profile",
    RefusalNumber.REPEATED: "this tag occurs twice",
    RefusalNumber.UNKNOWN_CARD: "no card has this PAN and sequence number",
    RefusalNumber.NOT_ARQC: "it is no online request",
    RefusalNumber.UNKNOWN_KEY: "no key set has this derivation key index with keys of the card's suite",
    RefusalNumber.BAD_CRYPTOGRAM: "the cryptogram is wrong",
    RefusalNumber.BELOW_WINDOW: "the ATC is 256 or more below this greatest one of the card",
    RefusalNumber.TAKEN: "another request was decided on this ATC: the shard and the index of its record",
    RefusalNumber.PENDING: "another line on this ATC was being decided",
    RefusalNumber.STORE_FAULT: "the journal took no record",
}


def reason_of(number: str) -> str:
    """The words of a refusal's number; nothing if it has none."""
    return REASONS.get(RefusalNumber(int(number)), "") if is_known(number) else ""


def is_known(number: str) -> bool:
    return number.isdecimal() and int(number) in set(map(int, REASONS))
