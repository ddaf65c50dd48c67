"""Which function says a constraint, by its name.

`HOLDS` says that a constraint holds wherever its enforcement literals are true, and serves `NAME` and `NAME_imp`;
`FAILS` says that it does not hold, and with the former serves `NAME_reif`; `WHOLE` says constraints of exactly that name.
"""

from collections.abc import Callable, Sequence

from ..cpmodel import Affine, CpModel, Literals
from ..domains import Domain
from ..encoding import Encoding
from ..flatzinc import Constraint, Value
from ..references import References


class Posting:
    """A constraint that is being said: its arguments, and the enforcement literals where it has to hold."""

    __slots__ = ("references", "model", "encoding", "arguments", "enforcement")

    def __init__(
        self, references: References, encoding: Encoding, arguments: Sequence[Value], enforcement: Literals
    ) -> None:
        self.references, self.model, self.encoding = references, references.model, encoding
        self.arguments, self.enforcement = arguments, enforcement

    def affine(self, place: int) -> Affine:
        """Argument `place` as an expression."""
        return self.references.affine(self.arguments[place])

    def affines(self, place: int) -> list[Affine]:
        """Argument `place` as expressions."""
        return self.references.affines(self.arguments[place])

    def scalars(self) -> list[Affine]:
        """All arguments, each an expression."""
        return [self.references.affine(value) for value in self.arguments]

    def lists(self) -> list[list[Affine]]:
        """All arguments, each a list of expressions."""
        return [self.references.affines(value) for value in self.arguments]

    def literal(self, place: int) -> int:
        """Argument `place` as a literal."""
        return self.references.literal(self.arguments[place])

    def literals(self, place: int) -> Literals:
        """Argument `place` as literals."""
        return self.references.literals(self.arguments[place])

    def number(self, place: int) -> int:
        """Argument `place`, a number."""
        return self.references.number(self.arguments[place])

    def numbers(self, place: int) -> list[int]:
        """Argument `place`, numbers."""
        return self.references.numbers(self.arguments[place])

    def set(self, place: int) -> Domain:
        """Argument `place`, a set of whole numbers."""
        return self.references.set(self.arguments[place])

    def under(self, literal: int) -> Literals:
        """The enforcement literals and this one, which is left out where it is true."""
        return self.enforcement if self.model.known(literal) else [*self.enforcement, literal]


Rule = Callable[[Posting], None]

HOLDS: dict[str, Rule] = {}
FAILS: dict[str, Rule] = {}
WHOLE: dict[str, Rule] = {}

FLOATS = ("float_", "int2float", "array_float", "array_var_float")
SETS = ("set_", "array_set", "array_var_set")


def register(table: dict[str, Rule], *names: str) -> Callable[[Rule], Rule]:
    """Registers a function under these names."""

    def keep(rule: Rule) -> Rule:
        table.update(dict.fromkeys(names, rule))
        return rule

    return keep


def holds(*names: str) -> Callable[[Rule], Rule]:
    """Registers what says that constraints of these names hold."""
    return register(HOLDS, *names)


def fails(*names: str) -> Callable[[Rule], Rule]:
    """Registers what says that constraints of these names do not hold."""
    return register(FAILS, *names)


def whole(*names: str) -> Callable[[Rule], Rule]:
    """Registers what says constraints of exactly these names."""
    return register(WHOLE, *names)


def post(references: References, encoding: Encoding, constraint: Constraint) -> None:
    """Says a constraint in the CpModel, or refuses it."""
    name, arguments = constraint.name, constraint.arguments
    rule = WHOLE.get(name) or HOLDS.get(name)
    try:
        if rule:
            rule(Posting(references, encoding, arguments, []))
        elif name.endswith("_imp") and name[:-4] in HOLDS:
            post_where(references, encoding, constraint, name[:-4])
        elif name.endswith("_reif") and name[:-5] in FAILS:
            post_where(references, encoding, constraint, name[:-5])
        else:
            references.model.refuse(why_unknown(name))
    except (IndexError, ValueError) as error:
        references.model.refuse(f"its arguments are not those that it is known with ({error})")


def post_where(references: References, encoding: Encoding, constraint: Constraint, name: str) -> None:
    """Says a constraint where its last argument is true, and its opposite where that is false and the name asks so."""
    *arguments, condition = constraint.arguments
    literal = references.literal(condition)
    truth = references.model.known(literal)
    if truth is not False:
        HOLDS[name](Posting(references, encoding, arguments, [] if truth else [literal]))
    if truth is not True and constraint.name.endswith("_reif"):
        FAILS[name](Posting(references, encoding, arguments, [] if truth is False else [-literal - 1]))


def why_unknown(name: str) -> str:
    """Why there is no function for a name."""
    if name.startswith(FLOATS):
        return "floats, and cpsolve has whole numbers and Booleans"
    if name.startswith(SETS):
        return "set variables, and cpsolve has none"
    return "there is no such constraint in cpsolve"
