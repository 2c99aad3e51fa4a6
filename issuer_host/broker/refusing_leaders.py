"""When a channel is no longer believed that has each message for a queue refused.

A broker's channel asks a quorum queue's leader when it first publishes to it. If it began while that leader's node
went, it goes on to ask the node that is gone, and refuses each message until that node is back, though the queue has
another leader long since (RabbitMQ 3.10.8). A new channel knows the right one. Nothing tells this from a queue that is
full, so a new channel is taken then too, and after longer and longer.
"""
FIRST_SECONDS, LAST_SECONDS = 5.0, 60.0


class RefusingLeaders:
    """Since when each queue, by its routing key, has refused all messages of a channel."""

    def __init__(self) -> None:
        self.since: dict[str, float] = {}
        self.seconds = FIRST_SECONDS

    def begins(self) -> None:
        """A new channel begins."""
        self.since.clear()

    def took(self, key: str) -> None:
        """The queue took a message."""
        self.since.pop(key, None)
        if not self.since:
            self.seconds = FIRST_SECONDS

    def refused(self, key: str, now: float) -> bool:
        """The queue refused a message. Returns whether a new channel is to be taken."""
        if now - self.since.setdefault(key, now) < self.seconds:
            return False
        self.seconds = min(2 * self.seconds, LAST_SECONDS)
        return True
