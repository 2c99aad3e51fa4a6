"""When a machine reads its stream, and what goes to the rule in one turn: the reader alone, over a loop by hand."""
from unittest import mock

from checks import Tally
from issuer_host.replication.messages import LOGS, NO_BARRIER, Record
from issuer_host.replication.rule_events import Answered, Beginning, Has, MessageRead, State, Told
from issuer_host.replication.rule_turns import RuleTurns
from issuer_host.replication.stream_reader import GATHERED, GATHER_SECONDS, StreamReader


def delays_of(loop: mock.Mock) -> "list[float]":
    """Returns after how long each thing is called that the loop was given."""
    return [call.args[0] for call in loop.call_later.call_args_list]


def a_machine_that_follows_reads_messages_together(tally: Tally) -> None:
    """What another machine recorded waits a moment for more; a machine that serves, or may begin to, reads at once."""
    for state in State:
        for unread in (1, GATHERED):
            loop = mock.Mock()
            guard, others = mock.Mock(), mock.Mock()
            stream = mock.Mock(unread=[None] * unread)
            stream.next.return_value = None
            reader = StreamReader(loop, guard, stream, others, mock.Mock(state=state), others)
            reader.call()
            reader.call()
            delay = GATHER_SECONDS if state is State.WAITING and unread < GATHERED else 0
            tally.expect(delays_of(loop), [delay], f"{state.value}, {unread} messages")
    # (it was waiting, and begins to serve meanwhile: the moment's end finds nothing more to do)
    reader.rule.state = State.WAITING
    loop.call_later.reset_mock()
    stream.unread[:] = [None]
    reader.is_called = False
    guard.take.side_effect = lambda step: step()
    for state in (State.WAITING, State.BEGINNING):
        reader.rule.state = state
        reader.call()
    tally.expect(delays_of(loop), [GATHER_SECONDS, 0], "a barrier of its own is on its way")
    loop.call_later.call_args_list[0].args[1]()
    tally.expect(stream.next.call_count, 0, "messages that were read before the loop came to them")
    loop.call_later.call_args_list[1].args[1]()
    tally.expect(stream.next.call_count, 1, "looks for a message")


def answers_go_to_the_rule_with_records_alone(tally: Tally) -> None:
    """What the host has answered goes with a message of records in one turn. A barrier, and a mark, come alone."""
    journals, watcher = mock.Mock(), mock.Mock()
    watcher.answered.return_value = [(print, (0, 1))]
    for state in State:
        for text in ("records a 1\n0 1 x\n", "barrier 2 b m2\n", "mark w\n"):
            rule = mock.Mock(state=state)
            reader = StreamReader(mock.Mock(), journals, mock.Mock(), journals, rule, watcher)
            reader.read(7, text)
            goes = state is State.SERVING and text.startswith("records")
            told = (text, (print, (0, 1))) if goes else (text,)
            tally.expect(rule.read.call_args.args, told, f"what is told at {text[:7]}, {state.value}")


def a_barrier_is_told_alone(tally: Tally) -> None:
    """What the journals have beyond what the rule knows goes to it with answers, and not with a barrier."""
    rule, journals = mock.Mock(), mock.Mock()
    rule.take.return_value = ()
    journals.length.side_effect = lambda shard: int(shard == 3)
    journals.record.side_effect = lambda shard, place: Record(shard, place, "x")
    turns = RuleTurns(rule, Beginning("m1", NO_BARRIER, (0,) * LOGS), journals, mock.Mock())
    turns.state = State.SERVING
    barrier, records = MessageRead("barrier 2 b m2\n"), MessageRead("records a 1\n0 1 x\n")
    turns.read(barrier.text)
    tally.expect(rule.take.call_args.args, (barrier,), "what is told with a barrier")
    turns.read(records.text, (print, (3, 0)))
    told = (records, Has(Record(3, 0, "x")), Told(), Answered(1, (3, 0)))
    tally.expect(rule.take.call_args.args, told, "what is told with records")
