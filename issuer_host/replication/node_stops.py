"""A guard over a partition's steps: what fails in one stops that partition alone, for good or for a while."""
import os
import sys
import traceback
from typing import Protocol

from issuer_host.commands.entry import without_cards
from issuer_host.facts.faults import lasts
from issuer_host.facts.refusal import Refusal
from issuer_host.facts.statuses import Status
from issuer_host.host.event_loop import Action
from issuer_host.replication.standby_run import TransientFault


class Stoppable(Protocol):
    """A partition, as a guard of its steps sees it."""

    def stop(self, why: str) -> None:
        """Stops until the node is started again."""

    def begin_again(self, why: str) -> None:
        """Begins again from the position that was written, after a while."""


class StepGuard:
    """Takes a partition's steps, each from the loop."""

    def __init__(self, partition: Stoppable) -> None:
        self.partition = partition
        self.is_stopped = False

    def take(self, step: Action) -> None:
        """Takes a step.

        A fault that nobody thought of ends the process: pika would take it for a lost connection, with half of a
        message taken.
        """
        try:
            if not self.is_stopped:
                step()
        except Refusal as fault:
            self.partition.stop(str(fault))
        except TransientFault as fault:
            self.partition.begin_again(str(fault))
        except OSError as fault:
            said = f"{fault.filename or 'a call of the system'}: {fault.strerror}"
            self.partition.stop(said) if lasts(fault) else self.partition.begin_again(said)
        except Exception:
            sys.stderr.write(without_cards(traceback.format_exc()))
            sys.stderr.flush()
            os._exit(Status.PASSES)

    def fail(self, fault: Exception) -> None:
        """Takes a fault that came outside of any step."""

        def step() -> None:
            raise fault

        self.take(step)
