"""Reads CNF and weighted CNF in the forms of the SAT competitions and the MaxSAT evaluations."""

from __future__ import annotations

import re
from collections.abc import Iterator

from cpsolve_opb.instance import Clause, Format, Instance, Refused

NUMBER = re.compile(r"[+-]?[0-9]{1,30}")


def read_cnf(text: str) -> Instance:
    """The instance of a `.cnf` file. Raises `Refused`."""
    line, (variables, count) = header(text, "cnf", (2,))
    instance = Instance(Format.CNF, variables)
    for number, clause in clauses(text, line):
        check_literals(number, clause, variables)
        instance.clauses.append(clause)
    check_count(count, len(instance.clauses))
    return instance


def read_wcnf(text: str) -> Instance:
    """The instance of a `.wcnf` file, in the older form with a line `p wcnf` or in the newer one. Raises `Refused`."""
    has_header = any(line.startswith("p") for line in text.splitlines()[:10_000])
    return read_old_wcnf(text) if has_header else read_new_wcnf(text)


def read_old_wcnf(text: str) -> Instance:
    """The older form: each clause begins with its weight, and one whose weight is at least `top` is hard."""
    line, (variables, count, *top) = header(text, "wcnf", (2, 3))
    instance = Instance(Format.OLD_WCNF, variables, costs=[])
    total = 0
    for number, (weight, *clause) in clauses(text, line):
        check_literals(number, clause, variables)
        take(instance, number, None if top and weight >= top[0] else weight, clause)
        total += 1
    check_count(count, total)
    return instance


def read_new_wcnf(text: str) -> Instance:
    """The newer form: `h` before a hard clause, a weight before another, one clause on each line."""
    instance = Instance(Format.WCNF, 0, costs=[])
    for number, line in enumerate(text.splitlines(), 1):
        words = line.split()
        if not words or words[0].startswith("c"):
            continue
        *numbers, last = (whole(number, word) for word in words[1:] or [""])
        if last != 0 or 0 in numbers:
            raise Refused(f"line {number}: a clause ends with its line, by 0")
        take(instance, number, None if words[0] == "h" else whole(number, words[0]), numbers)
        instance.variables = max([instance.variables, *map(abs, numbers)])
    return instance


def take(instance: Instance, line: int, weight: int | None, clause: Clause) -> None:
    """Adds a clause, which is hard where it has no weight."""
    if weight is None:
        instance.clauses.append(clause)
    elif weight < 0:
        raise Refused(f"line {line}: a weight is not below 0")
    else:
        instance.costs.append((weight, clause))


def header(text: str, kind: str, counts: tuple[int, ...]) -> tuple[int, list[int]]:
    """The number of the line `p cnf` or `p wcnf`, and its numbers, of which there are one of `counts`."""
    for number, line in enumerate(text.splitlines(), 1):
        words = line.split()
        if not words or words[0].startswith("c"):
            continue
        if words[:2] != ["p", kind] or len(words) - 2 not in counts:
            break
        return number, [whole(number, word) for word in words[2:]]
    raise Refused(f"no line p {kind} begins the file")


def clauses(text: str, skipped: int) -> Iterator[tuple[int, Clause]]:
    """The numbers of each clause, up to its 0, and the line on which it ends; `skipped` lines are left out."""
    clause: Clause = []
    for number, line in enumerate(text.splitlines()[skipped:], skipped + 1):
        if line.startswith("c"):
            continue
        if line.startswith("%"):
            break  # some older files have an end of their own
        for word in line.split():
            value = whole(number, word)
            if value:
                clause.append(value)
            else:
                yield number, clause
                clause = []
    if clause:
        raise Refused("no 0 ends the last clause")


def whole(line: int, word: str) -> int:
    """The number that a word is."""
    if not NUMBER.fullmatch(word):
        raise Refused(f"line {line}: a whole number is expected in place of {word or 'nothing'}")
    return int(word)


def check_literals(line: int, clause: Clause, variables: int) -> None:
    """Refuses a clause with a variable that the header does not name."""
    for literal in clause:
        if abs(literal) > variables:
            raise Refused(f"line {line}: the literal {literal}, where there are {variables} variables")


def check_count(stated: int, found: int) -> None:
    """Refuses a file that was cut off, or has more clauses than it says."""
    if stated != found:
        raise Refused(f"the file has {found} clauses where it says {stated}")
