"""What builds, proves and tests these sources, as the launcher asks for it. Each part is imported when it is needed."""
from collections.abc import Sequence


class SourceBuilder:
    """Builds and proves the sources beside this package."""

    def run_unproved(self, words: Sequence[str]) -> int:
        """Builds the program without proofs, and returns the status of one run of it."""
        from issuer_host.building.unproved_build import run_unproved

        return run_unproved(words)

    def prove(self, words: Sequence[str]) -> int:
        from issuer_host.building import proof_run

        return proof_run.prove(words)

    def test(self) -> int:
        from issuer_host.building import test_run

        return test_run.test()

    def docs(self, words: Sequence[str]) -> int:
        from issuer_host.building import docs

        return docs.write_docs(words)
