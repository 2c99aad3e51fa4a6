"""What is wrong with a configuration, as lines: each with the file, the line and the column, and no key in any."""
from __future__ import annotations

from typing import NamedTuple, Optional

from issuer_host.configuration.cautions import cautions_of
from issuer_host.configuration.faults import check_configuration


class Report(NamedTuple):
    """The lines for faults and for cautions, and the part and index that the host names, if it refuses."""

    faults: list[str]
    cautions: list[str]
    place: Optional[tuple[int, int]]

    @property
    def lines(self) -> list[str]:
        return self.faults + self.cautions


def report_of(path: str, data: bytes) -> Report:
    """Reports on the bytes of a configuration that were read from this path."""
    checked = check_configuration(data)

    def line_at(offset: int, says: str) -> str:
        line, column = checked.lines.place(offset)
        return f"{path}:{line}:{column}: {says}"

    faults = [line_at(fault.offset, fault.says) for fault in checked.faults]
    cautions = [line_at(caution.offset, f"warning: {caution.says}") for caution in cautions_of(checked)]
    first = checked.faults[0] if checked.faults else None
    return Report(faults, cautions, (first.part, first.index) if first else None)
