"""Stands in for a toolchain's library whose crates ask those below them along every path, and notes each call."""
CALLS: list[str] = []


class Crate:
    def __init__(self, name: str, deps: "list[Crate]") -> None:
        self.name = name
        self.deps = deps

    def below(self) -> "list[Crate]":
        CALLS.append(self.name)
        found: list[Crate] = []
        for dep in self.deps:
            found += [below for below in [*dep.below(), dep] if below not in found]
        return found

    def stamp(self) -> str:
        CALLS.append(self.name)
        return "".join([self.name, *[dep.stamp() for dep in self.deps]])
