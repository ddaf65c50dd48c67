"""Hands the logs of `solve --workers 1 --log` to `check`, for files or for drawn models. See scripts/log-check.

The models are drawn, and their solutions found, as in the tests of the bridge to Python (`drawing`, `definitions`)."""

import argparse
import os
import random
import resource
import subprocess
import sys
from collections import Counter
from concurrent.futures import ProcessPoolExecutor
from dataclasses import dataclass, field
from functools import cached_property, partial
from itertools import product
from pathlib import Path

import definitions
import drawing
from cpsolve.cp_model_pb2 import CpModelProto
from google.protobuf import text_format
from processes import CANNOT

TOP = Path(__file__).resolve().parent.parent
PROGRAM = TOP / "crates/cpsolve/out/cpsolve"
MARK = "%response\n"
CORE = "sufficient_assumptions_for_infeasibility"
ITEMS = {"s", "e", "o", "t", "a", "l"}
# The items at which a log of a right answer may be refused.
REASONS = {"e", "o", "t"}
# The most conflicts from which a worker learns, so that each drawn model is decided, and the seconds of a run of a file.
CONFLICTS, SECONDS = "1000000", 60


def run(program, words, text, seconds=None):
    """What a run writes, its exit status, and its processor seconds."""
    before = resource.getrusage(resource.RUSAGE_CHILDREN)
    done = subprocess.run([program, *words], input=text, capture_output=True, text=True, timeout=seconds)
    after = resource.getrusage(resource.RUSAGE_CHILDREN)
    taken = after.ru_utime + after.ru_stime - before.ru_utime - before.ru_stime
    return done.stdout, done.returncode, taken


# ---- responses and logs


@dataclass
class Response:
    """A response, and the items of its log, as `solve --log` writes them, a line each."""

    lines: list
    items: list

    @classmethod
    def read(cls, text):
        response, _, log = text.partition("%log\n")
        return cls(response.splitlines(), log.splitlines()[:-1])

    @property
    def text(self):
        return "".join(f"{line}\n" for line in [*self.lines, "%log", *self.items, "%end"])

    def numbers(self, name):
        """The values of a field of the response."""
        return [int(line.partition(": ")[2]) for line in self.lines if line.startswith(f"{name}: ")]

    @property
    def status(self):
        return self.lines[0].partition(": ")[2]

    @property
    def is_decided(self):
        return self.status in ("OPTIMAL", "INFEASIBLE")


@dataclass
class Verdict:
    """What `check` says: the line that is refused first, with its number from 1 on, or none where it is verified."""

    number: int | None = None
    line: str = ""

    @property
    def is_verified(self):
        return self.number is None

    @property
    def letter(self):
        """The letter of the item that was refused."""
        word = self.line.partition(" ")[0]
        return word if word in ITEMS else ""


def verdict(program, model, response):
    """Has the program check a response, with its log, to the text of a model."""
    text = model + MARK + response.text
    said, status, _ = run(program, ["check"], text)
    if (said, status) == ("verified\n", 0):
        return Verdict()
    number = said.removeprefix("not verified at line ").strip()
    if status != 6 or not number.isdigit():
        raise ValueError(f"check ends with {status} and says {said!r}")
    lines = text.splitlines()
    return Verdict(int(number), lines[int(number) - 1] if int(number) <= len(lines) else "")


def item_of(model, line):
    """The letter of an item, and of an `e` the kind of its constraint."""
    words = line.split()
    if words[0] != "e":
        return words[0]
    return f"e {model.constraints[int(words[1])].WhichOneof('constraint')}"


@dataclass
class Seen:
    """What came of one model."""

    kind: str
    status: str = ""
    is_verified: bool = False
    # the item that was refused first, with the kind of its constraint
    refused_at: str = ""
    items: int = 0
    # how many texts were tried that must be refused
    tampered: int = 0
    wrong: list = field(default_factory=list)


def judge(program, model, text, said, status):
    """What comes of a model, of which `solve --log` wrote this, and the response if there is one."""
    seen = Seen("")
    if status != 0:
        seen.wrong.append(f"solve ends with {status} and says {said[:200]!r}")
        return seen, None
    response = Response.read(said)
    seen.status, seen.items = response.status, len(response.items)
    if not response.is_decided:
        return seen, response
    found = verdict(program, text, response)
    seen.is_verified = found.is_verified
    if found.letter in REASONS:
        seen.refused_at = item_of(model, found.line)
    elif not found.is_verified:
        seen.wrong.append(f"refused at the line {found.line!r}")
    return seen, response


# ---- what must be refused


@dataclass
class Case:
    """A model with its text and all its solutions, and a response to it with its log."""

    model: CpModelProto
    text: str
    known: list
    response: Response

    @cached_property
    def best(self):
        """The least sum of a solution, if there is a solution."""
        return min(map(partial(definitions.objective, self.model), self.known), default=None)


def assuming(model, literals):
    """The model with these assumptions in place of its own."""
    made = CpModelProto()
    made.CopyFrom(model)
    del made.assumptions[:]
    made.assumptions.extend(literals)
    return made


def infeasible(core):
    """The lines of a response by which some assumptions are sufficient for infeasibility."""
    return ["status: INFEASIBLE", *(f"{CORE}: {literal}" for literal in core)]


def optimal(model, values, objective):
    """The lines of a response that calls a solution optimal, of that objective if the model has one."""
    lines = ["status: OPTIMAL", *(f"solution: {value}" for value in values)]
    if model.HasField("objective"):
        lines += [f"objective_value: {objective}", f"best_objective_bound: {objective}"]
    return lines


def wrong_lines(case):
    """Lines of responses that are wrong: of another status, with an assumption left out, with a worse solution, and
    with an objective one better."""
    model, core = case.model, case.response.numbers(CORE)
    for some in [[], *(without(core, place) for place in range(len(core)))]:
        if definitions.solutions(assuming(model, some)):
            yield infeasible(some)
    objective = partial(definitions.objective, model)
    if not case.known:
        values = [variable.domain[0] for variable in model.variables]
        yield optimal(model, values, objective(values))
        return
    worst = max(case.known, key=objective)
    if objective(worst) > case.best:
        yield optimal(model, worst, objective(worst))
    if model.HasField("objective"):
        values = case.response.numbers("solution")
        yield optimal(model, values, objective(values) - 1)


def without(items, place):
    """The items but one."""
    return [*items[:place], *items[place + 1 :]]


def heads(line):
    """How many words of an item stand before its atoms."""
    return {"e": 2, "t": 2, "o": 1, "l": 1}.get(line[0])


def shortened(rng, line):
    """An item without one of its atoms, where it has some."""
    words, head = line.split(), heads(line)
    if head is None or len(words) == head:
        return line
    return " ".join(without(words, rng.randrange(head, len(words))))


def logs_of(rng, items):
    """The items, the items without one of them, and the items with one shortened."""
    yield items
    place = rng.randrange(len(items))
    yield without(items, place)
    yield [*items[:place], shortened(rng, items[place]), *items[place + 1 :]]


def holds_atom(subjects, atom):
    """Whether an atom is true at the values of the subjects."""
    for sign, compares in (("<=", int.__le__), (">=", int.__ge__), ("!=", int.__ne__), ("=", int.__eq__)):
        subject, found, value = atom.partition(sign)
        if found:
            return compares(subjects[int(subject)], int(value))
    raise ValueError(f"no atom: {atom}")


def sums_of(items, values):
    """The values of the sums that a log defines."""
    for words in (line.split()[1:] for line in items if line.startswith("s ")):
        offset, *terms = map(int, words)
        yield offset + sum(coeff * values[var] for var, coeff in zip(terms[::2], terms[1::2], strict=True))


def speaks_of(case, line, values):
    """Whether what an item `e`, `o` or `t` says has to be true of an assignment."""
    if line[0] == "e":
        return definitions.is_satisfied(case.model, case.model.constraints[int(line.split()[1])], values)
    return line[0] == "t" or case.best is None or definitions.objective(case.model, values) < case.best


def is_false(case, items, place):
    """Whether an item `e`, `o` or `t` is false of some assignment of which it has to be true."""
    line = items[place]
    atoms = line.split()[heads(line) :]
    for values in product(*(definitions.values_of(variable.domain) for variable in case.model.variables)):
        if speaks_of(case, line, values):
            subjects = [*values, *sums_of(items[:place], values)]
            if not any(holds_atom(subjects, atom) for atom in atoms):
                return True
    return False


def false_item(rng, case):
    """The items of the log with one that is false, and its place; nothing where one was shortened and is true."""
    items = case.response.items
    places = [place for place, line in enumerate(items) if line[0] in REASONS and len(line.split()) > heads(line)]
    if not places:
        return None
    place = rng.choice(places)
    made = [*items[:place], shortened(rng, items[place]), *items[place + 1 :]]
    return (made, place) if is_false(case, made, place) else None


def tamper(program, rng, case, seen):
    """Tries texts that must be refused, and notes those that are not."""
    for lines in wrong_lines(case):
        for items in logs_of(rng, case.response.items):
            seen.tampered += 1
            other = Response(lines, items)
            if verdict(program, case.text, other).is_verified:
                seen.wrong.append(f"verified, but wrong: {other.text!r}")
    if made := false_item(rng, case):
        items, place = made
        seen.tampered += 1
        found = verdict(program, case.text, Response(case.response.lines, items))
        # the item's line stands behind the model, the mark, the response and the line `%log`
        line = case.text.count("\n") + 1 + len(case.response.lines) + 1 + place + 1
        if found.is_verified or found.number > line:
            seen.wrong.append(f"accepted, but false: {items[place]!r}")


# ---- drawn models


def drawn_model(rng, number):
    """A model of the kind whose turn it is, at times with assumptions."""
    kind = drawing.KINDS[number % len(drawing.KINDS)]
    model = drawing.model(rng, kind)
    if rng.random() < 0.3:
        model.assumptions.extend(drawing.literals(rng, rng.randint(1, 3)))
    return kind, model


def fault_of(case):
    """What is wrong with a response; nothing where it is right."""
    model, response = case.model, case.response
    if response.status == "INFEASIBLE":
        core = response.numbers(CORE)
        if not set(core) <= set(model.assumptions) or definitions.solutions(assuming(model, core)):
            return f"these assumptions are not sufficient: {core}"
        return ""
    if response.status != "OPTIMAL":
        return f"status {response.status}"
    values = tuple(response.numbers("solution"))
    if values not in case.known:
        return f"no solution: {values}"
    if definitions.objective(model, values) > case.best:
        return f"not the best solution: {values}"
    return ""


def see_drawn(program, seed, number):
    """What comes of a drawn model."""
    rng = random.Random(f"{seed} {number}")
    kind, model = drawn_model(rng, number)
    text = text_format.MessageToString(model)
    said, status, _ = run(program, ["solve", "--workers", "1", "--log", "--conflicts", CONFLICTS], text)
    seen, response = judge(program, model, text, said, status)
    seen.kind = kind
    if response is not None:
        case = Case(model, text, definitions.solutions(model), response)
        if fault := fault_of(case):
            seen.wrong.append(fault)
        else:
            tamper(program, rng, case, seen)
    if seen.wrong:
        seen.wrong.append(text)
    return seen


def table_of(all_seen):
    """A line for each kind: how many models it had, how many were decided and verified, and where others were refused."""
    yield f"{'kind':<16}{'models':>8}{'decided':>9}{'verified':>10}{'items':>9}{'tampered':>10}  refused first at"
    for kind in dict.fromkeys(seen.kind for seen in all_seen):
        rows = [seen for seen in all_seen if seen.kind == kind]
        decided = sum(seen.status in ("OPTIMAL", "INFEASIBLE") for seen in rows)
        places = Counter(seen.refused_at for seen in rows if seen.refused_at)
        told = ", ".join(f"{place}: {count}" for place, count in places.most_common())
        items, verified = sum(seen.items for seen in rows), sum(seen.is_verified for seen in rows)
        tampered = sum(seen.tampered for seen in rows)
        yield f"{kind:<16}{len(rows):>8}{decided:>9}{verified:>10}{items:>9}{tampered:>10}  {told}".rstrip()


def check_drawn(program, seed, count):
    """Prints a table of drawn models, and answers what was wrong."""
    with ProcessPoolExecutor(len(os.sched_getaffinity(0))) as processes:
        all_seen = list(processes.map(partial(see_drawn, program, seed), range(count), chunksize=8))
    print(*table_of(all_seen), sep="\n")
    return [f"{seen.kind}: {told}" for seen in all_seen for told in seen.wrong]


# ---- files


def row_of(name, plain, logged, seen, size):
    """The line of a file: its times, its log, and the verdict."""
    times = f"{logged / plain:.2f}" if plain >= 0.01 else "-"
    told = "verified" if seen.is_verified else f"refused at {seen.refused_at}" if seen.refused_at else "-"
    return f"{name:<26}{seen.status:>11}{plain:>9.2f}{logged:>9.2f}{times:>7}{seen.items:>9}{size:>11}  {told}"


def check_file(program, path):
    """Prints the line of a file, and answers its two times and what was wrong."""
    text = path.read_text()
    text += "" if text.endswith("\n") else "\n"
    words = ["solve", "--workers", "1", "--conflicts", CONFLICTS]
    try:
        _, _, plain = run(program, words, text, SECONDS)
        said, status, logged = run(program, [*words, "--log"], text, 2 * SECONDS)
    except subprocess.TimeoutExpired:
        print(f"{path.name:<26}  takes more than {SECONDS} s", flush=True)
        return 0, 0, []
    seen, _ = judge(program, text_format.Parse(text, CpModelProto()), text, said, status)
    print(row_of(path.name, plain, logged, seen, len(said)), flush=True)
    return plain, logged, [f"{path}: {told}" for told in seen.wrong]


def check_files(program, paths):
    """Prints a table of files, and answers what was wrong."""
    print(f"{'model':<26}{'status':>11}{'s':>9}{'s, log':>9}{'times':>7}{'items':>9}{'bytes':>11}  log")
    rows = [check_file(program, path) for path in paths]
    plain, logged = sum(row[0] for row in rows), sum(row[1] for row in rows)
    print(f"{'in all':<26}{'':>11}{plain:>9.2f}{logged:>9.2f}{logged / plain if plain else 1:>7.2f}")
    return [told for row in rows for told in row[2]]


def main():
    words = argparse.ArgumentParser(prog="scripts/log-check")
    words.add_argument("--models", type=int, default=2000)
    words.add_argument("--seed", type=int, default=1)
    words.add_argument("--program", type=Path, default=PROGRAM)
    words.add_argument("files", nargs="*", type=Path, metavar="FILE")
    told = words.parse_args()
    program = told.program.resolve()
    if not os.access(program, os.X_OK):
        print(f"log-check: {program} is no program", file=sys.stderr)
        return CANNOT
    if missing := [path for path in told.files if not path.is_file()]:
        print(f"log-check: there is no file {missing[0]}", file=sys.stderr)
        return CANNOT
    wrong = check_files(program, told.files) if told.files else check_drawn(program, told.seed, told.models)
    for line in wrong:
        print(line, file=sys.stderr)
    return 1 if wrong else 0


if __name__ == "__main__":
    sys.exit(main())
