"""Makes a log for `cpsolve check` of a proof in DRAT. See scripts/log_from_drat.

Each clause of the model becomes an `e` item, and each lemma of the proof an `l` item, in order. Deletions are left out:
a clause that stays does no harm. A lemma that does not follow by unit propagation, as extended resolution has some, is
written too, and refused by the checker.
"""

import sys
from collections.abc import Iterable, Iterator
from pathlib import Path

from planning.model import Constraint, Model, read_model
from planning.textproto import TextError

USAGE = "usage: scripts/log_from_drat MODEL PROOF | scripts/log_from_drat --cnf MODEL"
LONGEST_PART = 1 << 16


class Refused(Exception):
    """Why a file is refused, in one line."""


def main(words: list[str]) -> int:
    """Runs the command with these words, and gives its exit status."""
    if len(words) != 2 or words[1].startswith("-") or (words[0].startswith("-") and words[0] != "--cnf"):
        print(USAGE, file=sys.stderr)
        return 2
    try:
        if words[0] == "--cnf":
            write(dimacs(*clauses_of(content(words[1]))))
        else:
            text = content(words[0])
            write(checked(text, clauses_of(text), content(words[1])))
    except Refused as refused:
        print(f"scripts/log_from_drat: {refused}", file=sys.stderr)
        return 1
    return 0


def content(name: str) -> str:
    try:
        return Path(name).read_text()
    except OSError as error:
        raise Refused(f"cannot read {name}: {error.strerror}") from error
    except UnicodeDecodeError as error:
        raise Refused(f"{name} is no text; `cadical --no-binary` writes one") from error


def write(lines: Iterable[str]) -> None:
    """Writes lines, many at once."""
    part: list[str] = []
    for line in lines:
        part.append(line)
        if len(part) == LONGEST_PART:
            sys.stdout.write("\n".join(part) + "\n")
            part.clear()
    sys.stdout.write("".join(line + "\n" for line in part))
    sys.stdout.flush()


# Literals are those of DIMACS: i and -i for variable i - 1.


def clauses_of(text: str) -> tuple[int, list[list[int]]]:
    """How many variables a model has, and its constraints as clauses."""
    try:
        model = read_model(text)
    except TextError as error:
        raise Refused(f"the model: {error}") from error
    check_variables(model)
    return len(model.variables), [clause_of(k, constraint) for k, constraint in enumerate(model.constraints)]


def check_variables(model: Model) -> None:
    for i, variable in enumerate(model.variables):
        if variable.domain != [(0, 1)]:
            raise Refused(f"variable {i} has another domain than 0 and 1")
    if model.objective is not None or model.assumptions:
        raise Refused("the model has an objective or assumptions, of which a CNF has none")


def clause_of(number: int, constraint: Constraint) -> list[int]:
    if constraint.kind != "bool_or":
        raise Refused(f"constraint {number} is no bool_or")
    negated = [-literal(reference) for reference in constraint.enforcement]
    return negated + [literal(reference) for reference in constraint.body.numbers("literals")]


def literal(reference: int) -> int:
    return reference + 1 if reference >= 0 else reference


def dimacs(variables: int, clauses: list[list[int]]) -> Iterator[str]:
    yield f"p cnf {variables} {len(clauses)}"
    for clause in clauses:
        yield " ".join(map(str, [*clause, 0]))


def checked(text: str, model: tuple[int, list[list[int]]], proof: str) -> Iterator[str]:
    """The lines of an input of `check`."""
    variables, clauses = model
    yield text.removesuffix("\n")
    yield from ("%response", "status: INFEASIBLE", "%log")
    for number, clause in enumerate(clauses):
        yield item(f"e {number}", clause)
    for lemma in lemmas(variables, proof):
        yield item("l", lemma)
    yield from ("l", "%end")


def item(head: str, clause: list[int]) -> str:
    return " ".join([head, *map(atom, clause)])


def atom(one: int) -> str:
    return f"{one - 1}>=1" if one > 0 else f"{-one - 1}<=0"


def lemmas(variables: int, proof: str) -> Iterator[list[int]]:
    """The lemmas of a proof up to the empty one, which is left out."""
    for number, line in enumerate(proof.splitlines(), 1):
        words = line.split()
        if not words or words[0] in ("d", "c"):
            continue
        try:
            *lemma, end = map(int, words)
        except ValueError as error:
            raise Refused(f"line {number} of the proof is no list of numbers") from error
        if end != 0 or not all(1 <= abs(one) <= variables for one in lemma):
            raise Refused(f"line {number} of the proof is no lemma over the model's variables")
        if not lemma:
            return
        yield lemma


if __name__ == "__main__":
    sys.exit(main(sys.argv[1:]))
