"""A model, a response to it, and the values that the response gives to the model's parts.

`docs/MODELS.md` says what each field means. The body of a constraint stays the message that it was read as.
"""

from __future__ import annotations

from dataclasses import dataclass, field
from fractions import Fraction

from planning.textproto import Message, TextError, fraction, read

LITERAL_KINDS = ("bool_or", "bool_and", "at_most_one", "exactly_one", "bool_xor")
KINDS = LITERAL_KINDS + (
    "linear", "int_div", "int_mod", "int_prod", "lin_max", "element", "table", "all_diff", "circuit", "interval",
    "no_overlap", "no_overlap_2d", "cumulative", "reservoir", "inverse", "automaton",
)  # fmt: skip
MODEL_FIELDS = {"name", "variables", "constraints", "objective", "search_strategy", "solution_hint", "assumptions"}


@dataclass
class Variable:
    """A variable's name and the intervals of its domain, ends included."""

    name: str
    domain: list[tuple[int, int]]


@dataclass
class Constraint:
    """A constraint. `kind` is "" where it has none; a kind that isn't known keeps its name."""

    name: str
    enforcement: list[int]
    kind: str
    body: Message


@dataclass
class Objective:
    """The sum that is minimised, and how it is shown."""

    terms: list[tuple[int, int]]
    offset: int
    scaling: int
    domain: list[tuple[int, int]]

    def shown(self, total: int) -> int:
        """The value that a response states where the sum is `total`."""
        return self.scaling * (total + self.offset)


@dataclass
class Model:
    """A model; `unread` are the names of fields that mean something but are not looked at here."""

    name: str
    variables: list[Variable]
    constraints: list[Constraint]
    objective: Objective | None
    assumptions: list[int]
    unread: list[str] = field(default_factory=list)


@dataclass
class Response:
    """A response; the numbers are None where it doesn't state them."""

    status: str
    solution: list[int]
    objective_value: Fraction | None
    best_bound: Fraction | None


@dataclass
class Interval:
    """An interval as the solution has it. `label` is its name, that of its start variable, or its number."""

    number: int
    label: str
    start: int
    end: int
    size: int
    is_present: bool

    @property
    def span(self) -> str:
        """When it runs, in words."""
        return f"{self.start} to {self.end}"


def pairs(flat: list[int]) -> list[tuple[int, int]]:
    """The intervals of a domain that is given as a flat list."""
    if len(flat) % 2:
        raise TextError("a domain has an odd number of bounds")
    return list(zip(flat[::2], flat[1::2]))


def terms_of(message: Message) -> list[tuple[int, int]]:
    """Coefficients and references of a sum."""
    coeffs, references = message.numbers("coeffs"), message.numbers("vars")
    if len(coeffs) != len(references):
        raise TextError("vars and coeffs are of different lengths")
    return list(zip(coeffs, references))


def read_model(text: str) -> Model:
    """The model that `text` is. Raises `TextError`."""
    tree = read(text)
    objectives = tree.messages("objective")
    unread = {name for name in tree.names() if name not in MODEL_FIELDS}
    return Model(
        tree.text("name"),
        [Variable(m.text("name"), pairs(m.numbers("domain"))) for m in tree.messages("variables")],
        [read_constraint(number, m) for number, m in enumerate(tree.messages("constraints"))],
        read_objective(objectives[-1]) if objectives else None,
        tree.numbers("assumptions"),
        sorted(unread),
    )


def read_constraint(number: int, message: Message) -> Constraint:
    """The constraint `number`."""
    kinds = [name for name in message.names() if name not in ("name", "enforcement_literal")]
    if len(kinds) > 1:
        raise TextError(f"constraint {number} has two kinds")
    kind = kinds[0] if kinds else ""
    body = message.message(kind) if kind else Message()
    return Constraint(message.text("name"), message.numbers("enforcement_literal"), kind, body)


def read_objective(message: Message) -> Objective:
    """The objective. A scaling factor that is 0 or left out is 1."""
    scaling = message.number("scaling_factor") or 1
    return Objective(terms_of(message), message.number("offset"), scaling, pairs(message.numbers("domain")))


def read_response(text: str) -> Response:
    """The response that `text` is. Raises `TextError`."""
    tree = read(text)

    def last(name: str) -> Fraction | None:
        return ([fraction(name, value) for value in tree.values(name)] or [None])[-1]

    status = tree.values("status")
    if not status or not isinstance(status[-1], str):
        raise TextError("there is no status")
    return Response(status[-1], tree.numbers("solution"), last("objective_value"), last("best_objective_bound"))


class Plan:
    """A model with a value for each of its variables."""

    def __init__(self, model: Model, values: list[int]) -> None:
        self.model = model
        self.values = values

    def value(self, reference: int) -> int:
        """The number that a reference stands for in a sum."""
        value = self.values[self.variable(reference)]
        return value if reference >= 0 else -value

    def variable(self, reference: int) -> int:
        """The variable that a reference names."""
        number = reference if reference >= 0 else -reference - 1
        if number >= len(self.values):
            raise TextError(f"there is no variable {number}")
        return number

    def is_true(self, literal: int) -> bool:
        """Whether a literal is true."""
        return self.values[self.variable(literal)] == (1 if literal >= 0 else 0)

    def all_true(self, literals: list[int]) -> bool:
        """Whether each of `literals` is true."""
        return all(self.is_true(literal) for literal in literals)

    def total(self, terms: list[tuple[int, int]]) -> int:
        """The value of a sum."""
        return sum(coeff * self.value(reference) for coeff, reference in terms)

    def expression(self, message: Message) -> int:
        """The value of an expression."""
        return self.total(terms_of(message)) + message.number("offset")

    def expressions(self, body: Message, name: str = "exprs") -> list[int]:
        """The values of a list of expressions."""
        return [self.expression(message) for message in body.messages(name)]

    def interval(self, number: int) -> Interval:
        """The interval that the constraint `number` is."""
        constraints = self.model.constraints
        if not 0 <= number < len(constraints) or constraints[number].kind != "interval":
            raise TextError(f"constraint {number} is no interval")
        constraint = constraints[number]
        start, end, size = (self.expression(constraint.body.message(name)) for name in ("start", "end", "size"))
        present = self.all_true(constraint.enforcement)
        return Interval(number, self.label(number), start, end, size, present)

    def label(self, number: int) -> str:
        """How the interval `number` is called."""
        constraint = self.model.constraints[number]
        if constraint.name:
            return constraint.name
        references = constraint.body.message("start").numbers("vars")
        named = self.model.variables[self.variable(references[0])].name if len(references) == 1 else ""
        return named or str(number)

    def intervals(self, body: Message, name: str = "intervals") -> list[Interval]:
        """The intervals that a list names, absent ones too."""
        return [self.interval(number) for number in body.numbers(name)]
