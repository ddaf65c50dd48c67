"""A model, read from its canonical text, and the texts that are made of it.

The program prints a model in canonical form: a field a line, a list in brackets, two blanks of indent a level. So its
parts are found by their lines alone, and stay as they were printed.
"""

from __future__ import annotations

import re
from collections import Counter, defaultdict
from collections.abc import Callable, Iterator
from dataclasses import dataclass
from typing import NamedTuple

LEAST, GREATEST = -(2**63), 2**63 - 1
# A field of the model with all that belongs to it, and a field of numbers.
PART = re.compile(r"^(\w+)(?:: .*| \{\n(?:  .*\n)*\})\n", re.M)
NUMBERS = re.compile(r"^ *(\w+): (?:\[(.+)\]|(-?\d+))$", re.M)
REFERENCES = {"enforcement_literal", "literals", "vars", "active_literals", "f_direct", "f_inverse"}
INTERVALS = {"intervals", "x_intervals", "y_intervals"}

# Intervals of values, rising, ends included.
Domain = list[tuple[int, int]]


class Refused(Exception):
    """Why a model is not taken, in one line."""


class Cut(NamedTuple):
    """Keeps a variable within `least` and `greatest`, ends included."""

    variable: int
    least: int
    greatest: int


Cuts = tuple[Cut, ...]


@dataclass
class Objective:
    """The sum that is minimised: terms of coefficient and reference, how it is shown, and where it must lie."""

    terms: list[tuple[int, int]]
    offset: int
    scaling: int
    domain: Domain

    def total(self, values: list[int]) -> int:
        """The sum at an assignment."""
        return sum(coeff * (values[r] if r >= 0 else -values[-r - 1]) for coeff, r in self.terms)

    def shown(self, total: int) -> int:
        """The value that a response states for a sum."""
        return self.scaling * (total + self.offset)

    def least(self, domain_of: Callable[[int], Domain]) -> int:
        """A number below which no sum lies: term by term its least, and not below the objective's own domain."""
        least = 0
        for coeff, reference in self.terms:
            domain = domain_of(variable_of(reference))
            signed = coeff if reference >= 0 else -coeff
            least += min(signed * domain[0][0], signed * domain[-1][1])
        return max(least, self.domain[0][0]) if self.domain else least

    def text(self, below: int | None) -> str:
        """The objective of a model that asks for a sum less than `below`, or for any."""
        domain = self.domain
        if below is not None:
            # No sum is LEAST. An empty list would allow them all.
            domain = within(domain or [(LEAST, GREATEST)], LEAST, below - 1) or [(LEAST, LEAST)]
        coeffs, references = [c for c, _ in self.terms], [r for _, r in self.terms]
        ends = [end for interval in domain for end in interval]
        return (
            f"objective {{ vars: {references} coeffs: {coeffs} offset: {self.offset}"
            f" scaling_factor: {self.scaling} domain: {ends} }}\n"
        )


@dataclass
class Model:
    """A model. `readers` counts for each variable the constraints that read it; `rest` only steers the search."""

    variables: str
    domains: list[Domain]
    constraints: str
    readers: list[int]
    objective: Objective | None
    rest: str

    def cube(self, cuts: Cuts, below: int | None) -> bytes:
        """The text of a cube that asks for a sum of the objective less than `below`, or for any."""
        added = (f"constraints {{ linear {{ vars: {v} coeffs: 1 domain: [{a}, {b}] }} }}\n" for v, a, b in cuts)
        objective = self.objective.text(below) if self.objective else ""
        return "".join([self.variables, self.constraints, *added, objective, self.rest]).encode()

    def fixed(self, values: list[int]) -> bytes:
        """The text of the model with these values alone in its domains."""
        variables = (f"variables {{ domain: [{value}, {value}] }}\n" for value in values)
        objective = self.objective.text(None) if self.objective else ""
        return "".join([*variables, self.constraints, objective]).encode()

    def has_values(self, values: list[int]) -> bool:
        """Whether there is a value for each variable, within its domain."""
        return len(values) == len(self.domains) and all(
            any(least <= value <= greatest for least, greatest in domain)
            for value, domain in zip(values, self.domains)
        )

    def least(self, cuts: Cuts) -> int:
        """A number below which no sum of the objective lies within these cuts; only of a model that has one."""
        narrowed: dict[int, Domain] = {}
        for variable, least, greatest in cuts:
            narrowed[variable] = within(narrowed.get(variable, self.domains[variable]), least, greatest)
        return self.objective.least(lambda variable: narrowed.get(variable, self.domains[variable]))


def variable_of(reference: int) -> int:
    """The variable that a reference names."""
    return reference if reference >= 0 else -reference - 1


def within(domain: Domain, least: int, greatest: int) -> Domain:
    """What of a domain lies from `least` to `greatest`."""
    return [(max(a, least), min(b, greatest)) for a, b in domain if a <= greatest and b >= least]


def pairs(ends: list[int]) -> Domain:
    """The intervals of a flat list of ends."""
    return list(zip(ends[::2], ends[1::2]))


def numbers(part: str) -> Iterator[tuple[str, list[int]]]:
    """The fields of numbers of a part, in order."""
    for name, several, one in NUMBERS.findall(part):
        yield name, [int(word) for word in (several or one).split(", ")]


def references(part: str) -> Iterator[int]:
    """The variables that a constraint names itself, each as often as it does."""
    return (variable_of(r) for name, listed in numbers(part) if name in REFERENCES for r in listed)


def count_readers(constraints: list[str], variables: int) -> list[int]:
    """How many constraints read each variable. One that names intervals reads what they read."""
    spans = {i: set(references(part)) for i, part in enumerate(constraints) if "\n  interval {" in part}
    counts: Counter[int] = Counter()
    for part in constraints:
        named = (spans[i] for name, listed in numbers(part) if name in INTERVALS for i in listed)
        counts.update(set(references(part)).union(*named))
    return [counts[v] for v in range(variables)]


def read_objective(part: str) -> Objective:
    """The objective that a part of a model is."""
    fields = dict(numbers(part))
    terms = list(zip(fields.get("coeffs", []), fields.get("vars", [])))
    # A scaling factor that is 0 or left out is 1.
    scaling = fields.get("scaling_factor", [1])[0] or 1
    return Objective(terms, fields.get("offset", [0])[0], scaling, pairs(fields.get("domain", [])))


def read_model(text: str) -> Model:
    """The model of a canonical text. Raises `Refused` where it has assumptions."""
    parts: dict[str, list[str]] = defaultdict(list)
    for found in PART.finditer(text):
        parts[found[1]].append(found[0])
    if parts["assumptions"]:
        raise Refused("assumptions are not taken: write each as a constraint bool_or of one literal")
    variables, constraints = parts["variables"], parts["constraints"]
    objective = read_objective(parts["objective"][0]) if parts["objective"] else None
    return Model(
        "".join(variables),
        [pairs(dict(numbers(part))["domain"]) for part in variables],
        "".join(constraints),
        count_readers(constraints, len(variables)),
        objective,
        "".join(parts["search_strategy"] + parts["solution_hint"]),
    )
