"""In which order the account and the host are asked, and what becomes of a request on which they differ."""

from collections.abc import Callable, Mapping
from typing import NamedTuple, Optional

from issuer_host.facts import answers
from issuer_host.gateway import requests, responses
from issuer_host.gateway.account import APPROVED, NO, RELEASE, SILENT, YES, Account, Verdict
from issuer_host.gateway.requests import RequestLine

AskHost = Callable[[RequestLine, object, float, Callable[[Optional[str]], None]], None]


class Result(NamedTuple):
    """What a request came to: the host's answer, or None if there was none.

    If there is a code, the account declined and the response has this code without a reply for the card.
    """

    answer: Optional[str]
    verdict: Verdict
    code: str = ""


class RequestOnItsWay(NamedTuple):
    """A request on its way.

    `declines` has the statuses of cards by the account's codes, and `silent` is the code where it is silent.
    """

    line: RequestLine
    elements: Mapping[str, str]
    declines: Mapping[str, int]
    silent: str
    source: object
    began: float
    then: Callable[[Result], None]


class AccountOrder:
    """Asks the account first, and then the host; or, if the cryptogram comes first, the account after an approval."""

    def __init__(self, account: Account, is_cryptogram_first: bool) -> None:
        self.account, self.is_cryptogram_first = account, is_cryptogram_first

    def authorise(self, asked: RequestOnItsWay, ask_host: AskHost) -> None:
        if self.is_cryptogram_first:
            ask_host(asked.line, asked.source, asked.began, lambda answer: self.decided(asked, answer))
        else:
            self.account.ask(asked.line, asked.elements, lambda key, verdict: self.held(asked, ask_host, key, verdict))

    # The account first

    def held(self, asked: RequestOnItsWay, ask_host: AskHost, key: str, verdict: Verdict) -> None:
        """The account answered: the host is asked, with the status of the account's decline if it said no."""
        line: Optional[RequestLine] = asked.line
        if self.is_no(verdict):
            code = verdict.code or asked.silent
            status = asked.declines.get(code)
            line = None if status is None else requests.declined_by(asked.line, status)
            if line is None:
                asked.then(Result(None, verdict, code))
                return
        assert line is not None
        ask_host(line, asked.source, asked.began, lambda answer: self.compare(asked, key, verdict, answer))

    def is_no(self, verdict: Verdict) -> bool:
        return verdict.word == NO or verdict.word == SILENT and not self.account.is_table

    def compare(self, asked: RequestOnItsWay, key: str, verdict: Verdict, answer: Optional[str]) -> None:
        """The host answered. Without an answer in time the request may be decided: a repeat or a reversal comes."""
        is_approved = approves(answer)
        if verdict.word == YES and answer is not None and not is_approved:
            self.account.tell(RELEASE, key, why_of(answer))
        elif verdict.word != YES and is_approved:
            self.account.tell(APPROVED, key, f"the account said {verdict.text}")
        asked.then(Result(answer, verdict))

    # The cryptogram first

    def decided(self, asked: RequestOnItsWay, answer: Optional[str]) -> None:
        if not approves(answer):
            asked.then(Result(answer, Verdict("")))
            return
        self.account.ask(asked.line, asked.elements, lambda key, verdict: self.agreed(asked, answer, key, verdict))

    def agreed(self, asked: RequestOnItsWay, answer: Optional[str], key: str, verdict: Verdict) -> None:
        """The account answered after the host approved. Its no goes to the terminal without a reply for the card."""
        if self.is_no(verdict):
            asked.then(Result(answer, verdict, verdict.code or asked.silent))
            return
        if verdict.word == SILENT:
            self.account.tell(APPROVED, key, f"the account said {verdict.text}")
        asked.then(Result(answer, verdict))


def approves(answer: Optional[str]) -> bool:
    decision = responses.decision_of(answer) if answer is not None else None
    return decision is not None and decision.approves


def why_of(answer: str) -> str:
    """Why a host's answer is no approval: a refusal by its number, or that it declined."""
    word, refusal = answers.kind_of(answer)
    return f"{word} {refusal}" if refusal else "declined"
