"""Writes an instance as a CpModel.

Variable `v` of the instance is variable `v - 1` of the model, and a literal `-v` is the reference `-v` too. A weighted
clause of several literals has one more variable, which is true where its weight may be paid.
"""

from __future__ import annotations

from cpsolve_opb.instance import GREATEST_SUM, MOST, Clause, Instance, Sum, Unsupported

LEAST, GREATEST = -(2**63), 2**63 - 1
MOST_BYTES = 2**26
# For the bound of a later question.
ROOM = 100


def reference(literal: int) -> int:
    """The model's reference to a literal of the instance."""
    return literal - 1 if literal > 0 else literal


def literals(kind: str, clause: Clause) -> str:
    """A constraint of one of the kinds over literals."""
    return f"constraints {{ {kind} {{ literals: [{', '.join(str(reference(one)) for one in clause)}] }} }}\n"


def linear(terms: list[tuple[int, int]], domain: tuple[int, int]) -> str:
    """A sum of weights times variables, from 1 on, that lies in `domain`."""
    references, weights = ", ".join(str(v - 1) for _, v in terms), ", ".join(str(w) for w, _ in terms)
    return f"constraints {{ linear {{ vars: [{references}] coeffs: [{weights}] domain: {list(domain)} }} }}\n"


def over_variables(terms: list[tuple[int, int]]) -> tuple[list[tuple[int, int]], int]:
    """The same sum over variables alone, each once and none with the weight 0, and a number that is added to it."""
    weights: dict[int, int] = {}
    added = 0
    for weight, literal in terms:
        variable = abs(literal)
        if literal < 0:
            added += weight
            weight = -weight
        weights[variable] = weights.get(variable, 0) + weight
    return [(weight, variable) for variable, weight in weights.items() if weight], added


def constraint_of(one: Sum) -> str:
    """A sum as the strongest kind of constraint that says the same, or nothing where it always holds."""
    terms, added = over_variables(one.terms)
    bound = one.bound - added
    # The same with positive weights: a variable with a negative one is replaced by its opposite.
    positive = [(abs(weight), variable if weight > 0 else -variable) for weight, variable in terms]
    degree = bound + sum(-weight for weight, _ in terms if weight < 0)
    chosen = [literal for _, literal in positive]
    if one.is_equality:
        if degree == 1 and all(weight == 1 for weight, _ in positive):
            return literals("exactly_one", chosen)
        check_sum(terms, f"line {one.line}")
        return linear(terms, (bound, bound)) if LEAST <= bound <= GREATEST else literals("bool_or", [])
    if degree <= 0:
        return ""
    if sum(weight for weight, _ in positive) < degree:
        return literals("bool_or", [])
    # No weight counts for more than what is asked for.
    positive = [(min(weight, degree), literal) for weight, literal in positive]
    if all(weight == degree for weight, _ in positive):
        return literals("bool_or", chosen)
    if all(weight == 1 for weight, _ in positive) and degree == len(positive) - 1:
        return literals("at_most_one", [-literal for literal in chosen])
    terms, added = over_variables(positive)
    check_sum(terms, f"line {one.line}")
    return linear(terms, (degree - added, GREATEST))


def check_sum(terms: list[tuple[int, int]], place: str) -> None:
    """Refuses a sum whose weights are too great for the program."""
    if sum(abs(weight) for weight, _ in terms) > GREATEST_SUM:
        raise Unsupported(f"{place}: the weights add up to more than {GREATEST_SUM}")


class ModelText:
    """The model of an instance, without what differs from one question to the next."""

    def __init__(self, instance: Instance) -> None:
        self.variables = instance.variables
        self.has_objective = instance.costs is not None
        constraints = [literals("bool_or", clause) for clause in instance.clauses]
        constraints += [text for text in map(constraint_of, instance.sums) if text]
        paid: list[tuple[int, int]] = []
        constant = 0
        for weight, clause in instance.costs or []:
            if len(clause) == 1:
                paid.append((weight, -clause[0]))
            elif clause:
                self.variables += 1
                constraints.append(literals("bool_or", [*clause, self.variables]))
                paid.append((weight, self.variables))
            else:
                constant += weight
        self.terms, added = over_variables(paid)
        self.constant = constant + added
        check_sum(self.terms, "the objective")
        if self.variables > MOST or len(constraints) > MOST:
            raise Unsupported(f"there are more than {MOST} variables or constraints")
        self.body = "variables { domain: [0, 1] }\n" * self.variables + "".join(constraints)
        if len(self.question(0, None)) > MOST_BYTES - ROOM:
            raise Unsupported(f"the model has more than {MOST_BYTES} bytes")

    def question(self, best: int | None, hint: list[bool] | None) -> str:
        """The model, which asks for less than the cost `best`, with a hint for all its variables where it has room."""
        text = self.body
        if self.has_objective:
            references, weights = ", ".join(str(v - 1) for _, v in self.terms), ", ".join(str(w) for w, _ in self.terms)
            domain = "" if best is None else f" domain: {[LEAST, best - self.constant - 1]}"
            text += f"objective {{ vars: [{references}] coeffs: [{weights}]{domain} }}\n"
        if hint is None:
            return text
        values = [int(value) for value in hint]
        hinted = f"solution_hint {{ vars: {list(range(len(hint)))} values: {values} }}\n"
        return text + hinted if len(text) + len(hinted) <= MOST_BYTES else text
