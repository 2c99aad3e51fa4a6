"""A publisher that asks on while its partition's queue is gone."""
from issuer_host.broker.connection import Confirm
from issuer_host.broker.publisher import Asker, PublishedRequest


class PatientAsker(Asker):
    """An Asker to whom a queue that doesn't exist is as one that is full: somebody declares it again."""

    def confirmed(self, question: PublishedRequest, how: Confirm) -> None:
        super().confirmed(question, Confirm.NACKED if how is Confirm.RETURNED else how)
