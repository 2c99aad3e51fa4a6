"""The words of a service's command."""
import argparse
import sys
from typing import NoReturn, Optional

from issuer_host.facts.refusal import tell
from issuer_host.facts.statuses import Status


class ServiceWords(argparse.ArgumentParser):
    """Reads words. Wrong ones end with the status of no command: argparse has that of a configuration."""

    def __init__(self, name: str, usage: Optional[str]) -> None:
        super().__init__(usage=usage)
        self.name = name

    def error(self, message: str) -> NoReturn:
        tell(self.name, message)
        sys.exit(Status.USAGE)
