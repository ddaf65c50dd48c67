"""Writes an answer in the lines of the competitions, and gives their exit statuses."""

from __future__ import annotations

from collections.abc import Iterator

from cpsolve_opb.instance import Format, Instance
from cpsolve_opb.search import Search, Status

EXITS = {Status.OPTIMUM: 30, Status.SATISFIABLE: 10, Status.UNSATISFIABLE: 20, Status.UNKNOWN: 0}
LITERALS_A_LINE = 100


def answer_lines(status: Status, search: Search | None) -> Iterator[str]:
    """The lines `s` and `v`; without a search nothing was found."""
    yield f"s {status.value}"
    if search and search.best is not None:
        yield from value_lines(search.instance, search.best)


def value_lines(instance: Instance, values: list[bool]) -> Iterator[str]:
    """The values of all variables, as the form of the file has it."""
    if instance.format is Format.WCNF:
        yield "v " + "".join("1" if value else "0" for value in values[1:])
        return
    letter = "x" if instance.format is Format.OPB else ""
    words = [f"{letter}{v}" if values[v] else f"-{letter}{v}" for v in range(1, instance.variables + 1)]
    if instance.format is Format.CNF:
        words.append("0")
    for place in range(0, len(words) or 1, LITERALS_A_LINE):
        yield " ".join(["v", *words[place : place + LITERALS_A_LINE]])
