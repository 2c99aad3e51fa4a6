"""Reply queues that refused answers a moment ago: nobody else waits for them."""
import time

# So long a queue counts as deaf after it refused an answer.
DEAF_SECONDS = 10.0


class RefusingQueues:
    def __init__(self) -> None:
        # Until when, by name, in the order in which they were added.
        self.until: dict[str, float] = {}

    def add(self, queue: str) -> None:
        now = time.monotonic()
        self.until.pop(queue, None)
        self.until[queue] = now + DEAF_SECONDS
        while next(iter(self.until.values())) < now:
            del self.until[next(iter(self.until))]

    def has(self, queue: str) -> bool:
        return self.until.get(queue, 0.0) > time.monotonic()
