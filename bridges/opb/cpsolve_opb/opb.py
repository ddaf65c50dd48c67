"""Reads linear pseudo-Boolean instances in the format of the pseudo-Boolean competitions."""

from __future__ import annotations

import re
from collections.abc import Iterator

from cpsolve_opb.instance import Format, Instance, Refused, Sum, Unsupported

TOKEN = re.compile(r"[+-]?\s*[0-9]+|~?x[0-9]+|>=|<=|=|;|min:|max:|soft:|\S")
NUMBER = re.compile(r"[+-]?[0-9]+")
LITERAL = re.compile(r"(~?)x([0-9]+)")
HEADER = re.compile(r"\*\s*#variable=\s*([0-9]+)")
RELATIONS = (">=", "=", "<=")


def read_opb(text: str) -> Instance:
    """The instance that `text` is. Raises `Refused`, and `Unsupported` for what is not linear."""
    header = HEADER.match(text)
    instance = Instance(Format.OPB, int(header[1]) if header else 0)
    for line, tokens in statements(text):
        if tokens[0] in ("min:", "max:"):
            read_objective(instance, line, tokens)
        elif tokens[0] in ("[", "soft:"):
            raise Unsupported(f"line {line}: soft constraints are not supported")
        else:
            instance.sums.append(read_sum(line, tokens))
    used = [abs(literal) for one in instance.sums for _, literal in one.terms]
    used += [abs(clause[0]) for _, clause in instance.costs or []]
    highest = max(used, default=0)
    if header and highest > instance.variables:
        raise Refused(f"x{highest} is used, but the first line names {instance.variables} variables")
    instance.variables = max(instance.variables, highest)
    return instance


def statements(text: str) -> Iterator[tuple[int, list[str]]]:
    """The tokens of each statement, without its semicolon, and the number of the line on which it begins."""
    tokens: list[str] = []
    first = 0
    for number, line in enumerate(text.splitlines(), 1):
        if line.startswith("*"):
            continue
        # An older form of the format has a star between weight and literal.
        for token in TOKEN.findall(line.replace("*", " ")):
            if token == ";" and tokens:
                yield first, tokens
                tokens = []
            elif token != ";":
                first = first if tokens else number
                tokens.append(token)
    if tokens:
        raise Refused(f"line {first}: no semicolon ends the statement")


def read_objective(instance: Instance, line: int, tokens: list[str]) -> None:
    """Takes the sum that is minimised: a literal that is true pays its weight."""
    if tokens[0] == "max:":
        raise Unsupported(f"line {line}: the format has no max, only min")
    if instance.costs is not None or instance.sums:
        raise Refused(f"line {line}: an objective stands once, before the constraints")
    instance.costs = [(weight, [-literal]) for weight, literal in read_terms(line, tokens[1:])]


def read_sum(line: int, tokens: list[str]) -> Sum:
    """A constraint."""
    if len(tokens) < 2 or tokens[-2] not in RELATIONS:
        raise Refused(f"line {line}: a constraint ends with >= or =, and a number")
    terms, relation, bound = read_terms(line, tokens[:-2]), tokens[-2], whole(line, tokens[-1])
    if relation == "<=":
        return Sum([(-weight, literal) for weight, literal in terms], False, -bound, line)
    return Sum(terms, relation == "=", bound, line)


def read_terms(line: int, tokens: list[str]) -> list[tuple[int, int]]:
    """Pairs of a weight and a literal."""
    terms: list[tuple[int, int]] = []
    place = 0
    while place < len(tokens):
        weight = whole(line, tokens[place])
        literals = []
        while place + 1 < len(tokens) and (found := LITERAL.fullmatch(tokens[place + 1])):
            literals.append(literal(line, found))
            place += 1
        if len(literals) > 1:
            raise Unsupported(f"line {line}: a product of literals is not linear")
        if not literals:
            raise Refused(f"line {line}: a literal is expected after {tokens[place]}")
        terms.append((weight, literals[0]))
        place += 1
    return terms


def literal(line: int, found: re.Match[str]) -> int:
    """The literal of a token."""
    variable = int(found[2])
    if variable == 0:
        raise Refused(f"line {line}: variables begin with x1")
    return -variable if found[1] else variable


def whole(line: int, token: str) -> int:
    """The number of a token, which may have a sign."""
    digits = "".join(token.split())
    if not NUMBER.fullmatch(digits):
        raise Refused(f"line {line}: a whole number is expected in place of {token}")
    if len(digits) > 4000:
        raise Unsupported(f"line {line}: a number has more than 4000 digits")
    return int(digits)
