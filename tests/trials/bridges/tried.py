"""What a trial of several partitions has, for what is ordered and compared."""
from typing import Optional, Protocol


class Tried(Protocol):
    """The partitions of a trial: their configurations, their journals, and where orders are taken."""

    partitions: int
    configurations: str
    program: Optional[str]

    def journal(self, partition: int) -> str:
        """Returns the name of a partition's journals."""

    def sockets(self, partition: int) -> list[str]:
        """Returns the sockets at which orders for a partition are taken."""
