"""The instances that scripts/speed measures: drawn by a fixed seed, so that each run has the same ones.

An `Instance` holds sums over Boolean variables, as cpsolve's text and as OPB, so that cpsolve and clasp get the same.
The other models are texts for cpsolve alone.
"""

from __future__ import annotations

import random
from dataclasses import dataclass, field
from itertools import combinations

LEAST, GREATEST = -(2**63), 2**63 - 1


@dataclass
class Instance:
    """Sums `least <= terms <= most` over variables that are 0 or 1, and a sum to minimise, if any."""

    variables: int = 0
    sums: list[tuple[list[tuple[int, int]], int, int]] = field(default_factory=list)
    objective: list[tuple[int, int]] = field(default_factory=list)

    def more(self, count: int) -> list[int]:
        """So many new variables."""
        self.variables += count
        return list(range(self.variables - count, self.variables))

    def at_least(self, terms: list[tuple[int, int]], least: int) -> None:
        self.sums.append((terms, least, GREATEST))

    def at_most(self, terms: list[tuple[int, int]], most: int) -> None:
        self.sums.append((terms, LEAST, most))

    def exactly(self, terms: list[tuple[int, int]], value: int) -> None:
        self.sums.append((terms, value, value))

    def one_of(self, variables: list[int]) -> None:
        self.exactly([(1, it) for it in variables], 1)

    def not_both(self, *variables: int) -> None:
        self.at_most([(1, it) for it in variables], 1)

    def text(self) -> str:
        """The model that cpsolve reads."""
        lines = ["variables { domain: [0, 1] }"] * self.variables
        for terms, least, most in self.sums:
            lines.append(f"constraints {{ linear {{ {listed(terms)} domain: [{least}, {most}] }} }}")
        if self.objective:
            lines.append(f"objective {{ {listed(self.objective)} }}")
        return "\n".join(lines) + "\n"

    def opb(self) -> str:
        """The same for clasp."""
        lines = [f"* #variable= {self.variables} #constraint= {len(self.sums)}"]
        if self.objective:
            lines.append(f"min: {summed(self.objective)} ;")
        for terms, least, most in self.sums:
            if least == most:
                lines.append(f"{summed(terms)} = {least} ;")
            elif least > LEAST:
                lines.append(f"{summed(terms)} >= {least} ;")
            else:
                lines.append(f"{summed([(-weight, it) for weight, it in terms])} >= {-most} ;")
        return "\n".join(lines) + "\n"


def listed(terms: list[tuple[int, int]]) -> str:
    """Terms as the fields of cpsolve's text."""
    return f"vars: {[it for _, it in terms]} coeffs: {[weight for weight, _ in terms]}"


def summed(terms: list[tuple[int, int]]) -> str:
    """Terms in OPB."""
    return " ".join(f"{weight:+d} x{it + 1}" for weight, it in terms)


def clauses(variables: int, count: int, seed: int) -> Instance:
    """Random clauses of three literals."""
    draw, it = random.Random(seed), Instance(variables)
    for _ in range(count):
        signed = [(draw.choice((1, -1)), v) for v in draw.sample(range(variables), 3)]
        it.at_least(signed, 1 - sum(sign < 0 for sign, _ in signed))
    return it


def pigeons(holes: int) -> Instance:
    """One pigeon more than there are holes."""
    it = Instance()
    rows = [it.more(holes) for _ in range(holes + 1)]
    for row in rows:
        it.at_least([(1, v) for v in row], 1)
    for column in zip(*rows):
        it.at_most([(1, v) for v in column], 1)
    return it


def covers(rows: int, columns: int, seed: int) -> Instance:
    """The cheapest columns that cover each row."""
    draw, it = random.Random(seed), Instance(columns)
    for _ in range(rows):
        it.at_least([(1, v) for v in sorted(draw.sample(range(columns), min(10, columns)))], 1)
    it.objective = [(draw.randint(1, 30), v) for v in range(columns)]
    return it


def knapsack(items: int, rows: int, seed: int) -> Instance:
    """The items of the greatest value that fit into each of the rows."""
    draw, it = random.Random(seed), Instance(items)
    for _ in range(rows):
        weights = [draw.randint(10, 60) for _ in range(items)]
        it.at_most([(weight, v) for v, weight in enumerate(weights)], sum(weights) // 2)
    it.objective = [(-draw.randint(10, 60), v) for v in range(items)]
    return it


def assignment(persons: int, seed: int) -> Instance:
    """The cheapest task for each person."""
    draw, it = random.Random(seed), Instance()
    rows = [it.more(persons) for _ in range(persons)]
    for line in rows + [list(column) for column in zip(*rows)]:
        it.one_of(line)
    it.objective = [(draw.randint(1, 99), v) for row in rows for v in row]
    return it


def bins(items: int, seed: int) -> Instance:
    """The fewest bins of 100 that hold all items."""
    draw, it = random.Random(seed), Instance()
    count = items // 2
    used = it.more(count)
    sizes = [draw.randint(20, 60) for _ in range(items)]
    places = [it.more(count) for _ in range(items)]
    for row in places:
        it.one_of(row)
    for one, bin_ in enumerate(used):
        it.at_most([(size, row[one]) for size, row in zip(sizes, places)] + [(-100, bin_)], 0)
    it.objective = [(1, v) for v in used]
    return it


def colouring(nodes: int, percent: int, colours: int, seed: int) -> Instance:
    """A colour for each node, none on both ends of an edge."""
    draw, it = random.Random(seed), Instance()
    rows = [it.more(colours) for _ in range(nodes)]
    for row in rows:
        it.one_of(row)
    for one, other in combinations(rows, 2):
        if draw.randrange(100) < percent:
            for pair in zip(one, other):
                it.not_both(*pair)
    return it


def langford(pairs: int) -> Instance:
    """Two of each number, with as many places between them as the number says."""
    it, places = Instance(), 2 * pairs
    at: list[list[int]] = [[] for _ in range(places)]
    for number in range(1, pairs + 1):
        begins = it.more(places - number - 1)
        it.one_of(begins)
        for place, v in enumerate(begins):
            at[place].append(v)
            at[place + number + 1].append(v)
    for here in at:
        it.one_of(here)
    return it


def roster(nurses: int, days: int, seed: int) -> Instance:
    """Three shifts a day: enough nurses in each, no early one after a late one, and as few unwelcome ones as can be."""
    draw, it = random.Random(seed), Instance()
    shifts = [[it.more(3) for _ in range(days)] for _ in range(nurses)]
    for one in shifts:
        for day in one:
            it.not_both(*day)
        for today, tomorrow in zip(one, one[1:]):
            it.not_both(today[2], tomorrow[0])
        for first in range(0, days - 6):
            it.at_most([(1, v) for day in one[first : first + 7] for v in day], 5)
    for day in range(days):
        for shift in range(3):
            it.at_least([(1, one[day][shift]) for one in shifts], max(1, nurses // 5))
    it.objective = [(draw.randint(0, 5), v) for one in shifts for day in one for v in day]
    return it


def squares(order: int, seed: int) -> Instance:
    """A Latin square of which half of the cells are given, those of a shuffled one."""
    draw, it = random.Random(seed), Instance()
    names, lines = list(range(order)), list(range(order))
    draw.shuffle(names)
    draw.shuffle(lines)
    cells = [[it.more(order) for _ in range(order)] for _ in range(order)]
    for one in range(order):
        for other in range(order):
            it.one_of(cells[one][other])
            it.one_of([cells[one][place][other] for place in range(order)])
            it.one_of([cells[place][one][other] for place in range(order)])
            if draw.random() < 0.5:
                it.exactly([(1, cells[one][other][names[(lines[one] + other) % order]])], 1)
    return it


def queens(order: int) -> str:
    """So many queens on a board of that order, none in another one's way."""
    lines = [f"variables {{ domain: [0, {order - 1}] }}"] * order
    for slope in (0, 1, -1):
        exprs = " ".join(f"exprs {{ vars: {v} coeffs: 1 offset: {slope * v} }}" for v in range(order))
        lines.append(f"constraints {{ all_diff {{ {exprs} }} }}")
    return "\n".join(lines) + "\n"


def tables(rows: int, seed: int) -> str:
    """Tables of four columns in a ring, each of which shares two columns with the next, and a sum to minimise."""
    draw, count = random.Random(seed), 12
    lines = ["variables { domain: [0, 29] }"] * count
    for first in range(0, count, 2):
        exprs = " ".join(f"exprs {{ vars: {(first + place) % count} coeffs: 1 }}" for place in range(4))
        values = [draw.randrange(30) for _ in range(4 * rows)]
        lines.append(f"constraints {{ table {{ {exprs} values: {values} }} }}")
    lines.append(f"objective {{ {listed([(draw.randint(-9, 9), v) for v in range(count)])} }}")
    return "\n".join(lines) + "\n"


def products(count: int, seed: int) -> str:
    """A chain of products of two factors, of which the sum lies in a small interval, and a sum to minimise."""
    draw = random.Random(seed)
    lines = ["variables { domain: [2, 40] }"] * (count + 1) + ["variables { domain: [0, 1600] }"] * count
    for one in range(count):
        target, factors = f"vars: {count + 1 + one} coeffs: 1", (one, one + 1)
        exprs = " ".join(f"exprs {{ vars: {v} coeffs: 1 }}" for v in factors)
        lines.append(f"constraints {{ int_prod {{ target {{ {target} }} {exprs} }} }}")
    terms = [(draw.choice((1, -1)) * draw.randint(3, 9), count + 1 + one) for one in range(count)]
    middle = sum(weight for weight, _ in terms) * 200
    lines.append(f"constraints {{ linear {{ {listed(terms)} domain: [{middle}, {middle + 1}] }} }}")
    lines.append(f"objective {{ {listed([(draw.randint(-9, 9), v) for v in range(count + 1)])} }}")
    return "\n".join(lines) + "\n"


# Twelve models of middle size, for the cost of a conflict.
MIDDLE = {
    "clauses-200": clauses(200, 852, 11),
    "pigeons-9": pigeons(9),
    "covers-120": covers(100, 120, 3),
    "knapsack-60": knapsack(60, 1, 7),
    "multiknapsack-35": knapsack(35, 5, 7),
    "assignment-25": assignment(25, 5),
    "bins-24": bins(24, 9),
    "colouring-60": colouring(60, 40, 8, 2),
    "langford-10": langford(10),
    "roster-12": roster(12, 14, 4),
    "square-20": squares(20, 6),
    "knapsack-200": knapsack(200, 2, 3),
}

# Small ones, which both programs close within seconds: for the instructions of a whole run.
SMALL = {
    "clauses-60": clauses(60, 256, 1),
    "clauses-100": clauses(100, 400, 2),
    "pigeons-6": pigeons(6),
    "covers-30": covers(30, 40, 1),
    "covers-40": covers(40, 50, 2),
    "knapsack-15": knapsack(15, 1, 1),
    "multiknapsack-14": knapsack(14, 3, 2),
    "assignment-8": assignment(8, 1),
    "bins-8": bins(8, 1),
    "colouring-20": colouring(20, 40, 5, 1),
    "langford-7": langford(7),
    "roster-4": roster(4, 7, 1),
    "square-8": squares(8, 1),
}
