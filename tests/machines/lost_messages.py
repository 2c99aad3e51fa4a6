"""A machine whose messages the broker lost, in a stream that delivers what others write."""
from unittest import mock

from issuer_host.replication import stream_reader
from issuer_host.replication.rule_events import State
from issuer_host.replication.stream import Taken
from issuer_host.replication.stream_reader import StreamReader

LOOK_SECONDS = 0.5


def times_written_again(state: State, heard: str, every: float, seconds: float) -> int:
    """How often a machine in this state writes again what it never hears, while it hears this text every so often."""
    clock = mock.Mock()
    clock.monotonic.return_value = 0.0
    rule, watcher = mock.Mock(state=state), mock.Mock()
    watcher.answered.return_value = ()
    reader = StreamReader(mock.Mock(), mock.Mock(), mock.Mock(is_compared=True), mock.Mock(), rule, watcher)
    with mock.patch.object(stream_reader, "time", clock):
        reader.open(None)
        reader.write("mark own\n")
        messages = 0
        for look in range(1, round(seconds / LOOK_SECONDS) + 1):
            now = clock.monotonic.return_value = look * LOOK_SECONDS
            while (messages + 1) * every <= now:
                messages += 1
                reader.take(Taken(messages, heard))
            reader.look(now)
    return int(rule.write_again.call_count)
