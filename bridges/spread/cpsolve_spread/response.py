"""Reads what the program writes about a cube, and writes responses in the same form."""

from __future__ import annotations

import re
from collections.abc import Iterator
from dataclasses import dataclass
from enum import Enum

from cpsolve_spread.model import Model

SOLUTION = re.compile(r"^solution: (-?\d{1,20})$", re.M)


class Status(Enum):
    """What is known of a model or a cube."""

    OPTIMAL = "OPTIMAL"
    FEASIBLE = "FEASIBLE"
    INFEASIBLE = "INFEASIBLE"
    UNKNOWN = "UNKNOWN"

    @property
    def is_closed(self) -> bool:
        """Whether nothing better is left to find."""
        return self in (Status.OPTIMAL, Status.INFEASIBLE)

    @property
    def has_solution(self) -> bool:
        """Whether a solution comes with it."""
        return self in (Status.OPTIMAL, Status.FEASIBLE)


class Nonsense(Exception):
    """Why an answer is none, in one line."""


@dataclass
class Answer:
    """What a machine says of a cube; `values` is None without a solution, and `log` None where none came."""

    status: Status
    values: list[int] | None
    log: bytes | None


def read_answer(exit_status: int, output: bytes, model: Model) -> Answer:
    """The answer of a run of the program on a cube of `model`. Raises `Nonsense`."""
    response, mark, log = output.partition(b"%log\n")
    text = response.decode(errors="replace")
    if exit_status:
        last = (text.strip().splitlines() or ["it wrote nothing"])[-1]
        raise Nonsense(f"the program ended with status {exit_status}: {last[:200]}")
    first = text.partition("\n")[0].removeprefix("status: ")
    if first not in Status.__members__:
        raise Nonsense("the program wrote no response")
    status, values = Status[first], None
    if status.has_solution:
        values = [int(value) for value in SOLUTION.findall(text)]
        if not model.has_values(values):
            raise Nonsense("the program wrote a solution that is none")
    return Answer(status, values, log if mark else None)


def response_lines(status: Status, model: Model, values: list[int] | None, bound: int | None) -> Iterator[str]:
    """A response in the program's form. `bound` is a number below which no sum of the objective lies."""
    yield f"status: {status.value}"
    if status.has_solution:
        yield from (f"solution: {value}" for value in values)
    if model.objective and status is not Status.INFEASIBLE:
        if status.has_solution:
            yield f"objective_value: {model.objective.shown(model.objective.total(values))}"
        yield f"best_objective_bound: {model.objective.shown(bound)}"


def closed_response(status: Status, model: Model, values: list[int] | None) -> bytes:
    """The response OPTIMAL with this solution, or INFEASIBLE, as the checker reads it."""
    best = model.objective.total(values) if model.objective and values is not None else None
    return "".join(f"{line}\n" for line in response_lines(status, model, values, best)).encode()
