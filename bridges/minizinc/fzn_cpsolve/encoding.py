"""One literal for each pair of a variable and a value, and for each pair of a variable and a set of values.

Counting, tours, inverse lists and reified equalities all ask here, so that they share these literals."""

from . import domains
from .cpmodel import Affine, CpModel, Literals
from .domains import Domain


class Encoding:
    """The literals that say of a variable that it has a value, or one of several."""

    def __init__(self, model: CpModel) -> None:
        self.model = model
        self.values: dict[tuple[int, int], int] = {}
        self.sets: dict[tuple[int, tuple[tuple[int, int], ...]], int] = {}
        self.pairs: dict[tuple[Affine, Affine], int] = {}
        # A pair of variable and value that holds exactly where another one does.
        self.twins: dict[tuple[int, int], tuple[int, int]] = {}

    def value(self, part: Affine, value: int) -> int | None:
        """The literal that is true exactly where the expression has this value; None where it cannot."""
        if part.variable is None:
            return self.model.true_literal() if part.offset == value else None
        scaled, rest = divmod(value - part.offset, part.scale)
        domain = self.model.domains[part.variable]
        if rest or not domains.contains(domain, scaled):
            return None
        if domain[0][0] == domain[-1][1]:
            return self.model.true_literal()
        if domain[0][0] >= 0 and domain[-1][1] <= 1:
            return part.variable if scaled == 1 else -part.variable - 1
        return self.variable_value(part.variable, scaled)

    def variable_value(self, variable: int, value: int) -> int:
        """The literal of a pair of variable and value."""
        pair = variable, value
        literal = self.values.get(pair)
        if literal is None and pair in self.twins:
            literal = self.values.get(self.twins[pair])
        if literal is None:
            literal = self.model.new_literal()
        if pair not in self.values:
            self.values[pair] = literal
            self.tie(literal, Affine(1, variable, 0), [(value, value)])
        return literal

    def member(self, part: Affine, wanted: Domain) -> int | None:
        """The literal that is true exactly where the expression's value is in a set; None where it cannot be."""
        domain = self.model.domain(part)
        inside = domains.intersection(domain, wanted)
        outside = domains.intersection(domain, domains.complement(wanted))
        if not inside:
            return None
        if not outside:
            return self.model.true_literal()
        for side, sign in ((inside, 1), (outside, -1)):
            if side[0][0] == side[-1][1]:
                literal = self.value(part, side[0][0])
                if literal is not None:
                    return literal if sign > 0 else -literal - 1
        if part.scale not in (1, -1):
            literal = self.model.new_literal()
            self.tie(literal, part, inside)
            return literal
        return self.variable_member(part.variable, domains.image(inside, part.scale, -part.scale * part.offset))

    def variable_member(self, variable: int, inside: Domain) -> int:
        """The literal of a pair of variable and set of values."""
        pair = variable, tuple(inside)
        if pair not in self.sets:
            self.sets[pair] = self.model.new_literal()
            self.tie(self.sets[pair], Affine(1, variable, 0), inside)
        return self.sets[pair]

    def equal(self, first: Affine, second: Affine) -> int | None:
        """The literal that is true exactly where two expressions are equal; None where they cannot be."""
        if second.variable is None:
            return self.value(first, second.offset)
        if first.variable is None:
            return self.value(second, first.offset)
        pair = (first, second) if first <= second else (second, first)
        if pair not in self.pairs:
            literal = self.pairs[pair] = self.model.new_literal()
            self.tie_equal(literal, first, second)
        return self.pairs[pair]

    def tie(self, literal: int, part: Affine, wanted: Domain) -> None:
        """The literal says whether the expression's value is in a set."""
        self.model.add_linear([(1, part)], wanted, [literal])
        self.model.add_linear([(1, part)], domains.complement(wanted), [-literal - 1])

    def tie_equal(self, literal: int, first: Affine, second: Affine) -> None:
        """The literal says whether two expressions are equal."""
        terms = [(1, first), (-1, second)]
        self.model.add_linear(terms, [(0, 0)], [literal])
        self.model.add_linear(terms, domains.complement([(0, 0)]), [-literal - 1])

    def define(self, literal: int, part: Affine, wanted: Domain) -> None:
        """A literal of the model's own says whether the expression's value is in a set. It is the one that is shared,
        unless there is one already."""
        domain = self.model.domain(part)
        inside = domains.intersection(domain, wanted)
        outside = domains.intersection(domain, domains.complement(wanted))
        is_plain = part.variable is not None and part.scale in (1, -1) and (domain[0][0] < 0 or domain[-1][1] > 1)
        if not (is_plain and inside and outside) or self.model.known(literal) is not None:
            self.join(literal, self.member(part, wanted))
        elif domains.size(outside) == 1 < domains.size(inside):
            self.share(-literal - 1, part, outside)
        else:
            self.share(literal, part, inside)

    def share(self, literal: int, part: Affine, inside: Domain) -> None:
        """Keeps a literal for its pair of variable and value, or of variable and set; joins it to the one that is kept."""
        on_variable = domains.image(inside, part.scale, -part.scale * part.offset)
        low, high = on_variable[0][0], on_variable[-1][1]
        shared, key = (self.values, low) if low == high else (self.sets, tuple(on_variable))
        pair = part.variable, key
        if pair in shared:
            self.join(literal, shared[pair])
        else:
            shared[pair] = literal
            self.tie(literal, part, inside)

    def define_equal(self, literal: int, first: Affine, second: Affine) -> None:
        """A literal of the model's own says whether two expressions are equal, of which none is a number."""
        pair = (first, second) if first <= second else (second, first)
        if pair in self.pairs:
            self.join(literal, self.pairs[pair])
        else:
            self.pairs[pair] = literal
            self.tie_equal(literal, first, second)

    def join(self, literal: int, other: int | None) -> None:
        """Two literals are both true or both false; None is false."""
        if other is None:
            self.model.add_literals("bool_and", [-literal - 1])
        elif other != literal:
            self.model.add_literals("bool_xor", [literal, -other - 1])

    def link(self, first: tuple[int, int], second: tuple[int, int]) -> None:
        """Two pairs of variable and value hold together, so one literal serves both."""
        self.twins[first], self.twins[second] = second, first

    def counted(self, parts: list[Affine], wanted: Domain) -> Literals:
        """For each expression that can have one of these values the literal that says whether it has."""
        found = [self.member(part, wanted) for part in parts]
        return [literal for literal in found if literal is not None]
