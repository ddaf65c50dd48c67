"""Draws arguments of constraints, as text of FlatZinc and as functions of an assignment."""

import random
from dataclasses import dataclass, field
from typing import Any, NamedTuple

# Most assignments of a model that is drawn.
MAX_ASSIGNMENTS = 40
# How often an argument is a number or a truth value, how often a domain has a hole, and how often a variable comes again.
FIXED, HOLE, AGAIN = 0.2, 0.25, 0.15


class Variable(NamedTuple):
    """A variable that was drawn, by its number."""

    number: int


Argument = Any


@dataclass
class Draw:
    """Variables and arguments that are drawn by a generator."""

    rng: random.Random
    kinds: list[str] = field(default_factory=list)
    domains: list[list[int]] = field(default_factory=list)

    def variable(self, kind: str, domain: list[int]) -> Variable:
        """A variable: one that was drawn before, or a new one."""
        same = [n for n, known in enumerate(self.kinds) if known == kind and set(self.domains[n]) <= set(domain)]
        if same and self.rng.random() < AGAIN:
            return Variable(self.rng.choice(same))
        self.kinds.append(kind)
        self.domains.append(domain)
        return Variable(len(self.kinds) - 1)

    def integer(self, low: int = -3, high: int = 4, width: int = 3, fixed: float = FIXED) -> Argument:
        """A variable or a number from `low` to `high`."""
        first = self.rng.randint(low, high)
        last = min(high, first + self.rng.randint(1, width))
        if self.rng.random() < fixed or first == last:
            return first
        if self.rng.random() < HOLE:
            return self.variable("int", sorted({first, self.rng.randint(first, last), last}))
        return self.variable("int", list(range(first, last + 1)))

    def integers(self, count: int, low: int = -3, high: int = 4, width: int = 3, fixed: float = FIXED) -> list[Argument]:
        """Variables or numbers."""
        return [self.integer(low, high, width, fixed) for _ in range(count)]

    def boolean(self) -> Argument:
        """A Boolean variable, or a truth value."""
        return self.rng.random() < 0.5 if self.rng.random() < FIXED else self.variable("bool", [0, 1])

    def booleans(self, count: int) -> list[Argument]:
        """Boolean variables or truth values."""
        return [self.boolean() for _ in range(count)]

    def truths(self, count: int) -> list[bool]:
        """Truth values."""
        return [self.rng.random() < 0.5 for _ in range(count)]

    def number(self, low: int = -3, high: int = 4) -> int:
        """A number."""
        return self.rng.randint(low, high)

    def numbers(self, count: int, low: int = -3, high: int = 4) -> list[int]:
        """Numbers."""
        return [self.number(low, high) for _ in range(count)]

    def lengths(self, count: int) -> list[Argument]:
        """Durations, sizes or demands."""
        return self.integers(count, 0, 3, 1, 0.6)

    def set(self) -> set[int]:
        """A set of numbers."""
        return set(self.numbers(self.number(1, 3)))

    def is_small(self) -> bool:
        """Whether there are variables, and few assignments of them."""
        count = 1
        for domain in self.domains:
            count *= len(domain)
        return bool(self.domains) and count <= MAX_ASSIGNMENTS

    def declarations(self) -> list[str]:
        """The variables in FlatZinc."""
        found = []
        for number, (kind, domain) in enumerate(zip(self.kinds, self.domains)):
            is_range = domain == list(range(domain[0], domain[-1] + 1))
            values = f"{domain[0]}..{domain[-1]}" if is_range else "{" + ",".join(map(str, domain)) + "}"
            found.append(f"var {'bool' if kind == 'bool' else values}: x{number} :: output_var;")
        return found


def argument_text(argument: Argument) -> str:
    """An argument in FlatZinc."""
    match argument:
        case Variable(number):
            return f"x{number}"
        case bool():
            return "true" if argument else "false"
        case list():
            return "[" + ", ".join(map(argument_text, argument)) + "]"
        case set():
            return "{" + ", ".join(map(str, sorted(argument))) + "}"
    return str(argument)


def argument_value(argument: Argument, assignment: tuple[int, ...]) -> Any:
    """An argument at an assignment, truth values as numbers."""
    match argument:
        case Variable(number):
            return assignment[number]
        case bool():
            return int(argument)
        case list():
            return [argument_value(member, assignment) for member in argument]
    return argument
