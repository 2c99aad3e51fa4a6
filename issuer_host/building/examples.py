"""The runs whose answers are beside the files of examples/."""
import os
from typing import NamedTuple

from issuer_host.facts.paths import HOME

EXAMPLES = os.path.join(HOME, "examples")


class Example(NamedTuple):
    """A run: the file of examples/ with its answers, its words, and its journals' name if it has journals.

    The first run of a name begins its journals, and the later ones go on with them, in this order.
    """

    answers: str
    words: tuple[str, ...]
    journal: str = ""

    def all_words(self, journal: str = "") -> list[str]:
        """Returns the words of the run, with its journals under this name."""
        return [*self.words, "--journal", journal] if self.journal else list(self.words)


def words_in(name: str) -> tuple[str, ...]:
    """Returns the words that a file of examples/ has, one a line."""
    with open(os.path.join(EXAMPLES, name), encoding="utf-8") as text:
        return tuple(text.read().split())


def serve(requests: str, config: str = "config") -> tuple[str, ...]:
    return "serve", "--config", config, "--requests", requests


SHOW = ("show", "--config", "config")


def examples() -> list[Example]:
    """Returns all runs, in the order in which their journals need them."""
    return [
        Example("requests.answers", serve("requests"), "requests"),
        Example("requests.again.answers", serve("requests"), "requests"),
        Example("show.answers", SHOW, "requests"),
        Example("clearing.answers", ("clear", "--config", "config", "--clearing", "clearing"), "requests"),
        Example("feed", ("export", "--config", "config"), "requests"),
        Example("feed.answers", ("standby", "--config", "config", "--feed", "feed"), "standby"),
        Example("scripts.answers", serve("scripts"), "scripts"),
        Example("scripts.show.answers", SHOW, "scripts"),
        Example("aes.answers", serve("aes.requests", "aes.config"), "aes"),
        Example("fill.answers", words_in("fill")),
        Example("pin.answers", words_in("pin")),
        Example("world.answers", ("world", "--cards", "200", "--steps", "20000", "--seed", "7")),
    ]
