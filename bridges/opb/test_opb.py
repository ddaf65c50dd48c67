"""Tests of `cpsolve-opb`: python3 -m unittest discover bridges/opb

Small drawn instances are answered by trying every assignment, larger ones have answers that are well known. The tests
need the program, on the PATH, in CPSOLVE, or built in the repository.
"""

from __future__ import annotations

import itertools
import os
import random
import signal
import subprocess
import sys
import tempfile
import time
import unittest
from pathlib import Path

HERE = Path(__file__).resolve().parent
sys.path.insert(0, str(HERE))

from cpsolve_opb.answer import EXITS, answer_lines  # noqa: E402
from cpsolve_opb.command import READERS  # noqa: E402
from cpsolve_opb.instance import Refused  # noqa: E402
from cpsolve_opb.program import Program, find_program  # noqa: E402
from cpsolve_opb.search import Search  # noqa: E402

BRIDGE = HERE / "cpsolve-opb"
DRAWN = 25
PETERSEN = [(i, (i + 1) % 5) for i in range(5)] + [(i, i + 5) for i in range(5)]
PETERSEN += [(5 + i, 5 + (i + 2) % 5) for i in range(5)]


def setUpModule():
    try:
        find_program()
    except Refused as refused:
        raise unittest.SkipTest(str(refused)) from None


class Lines:
    """The lines of an answer by their letter, and the exit status that goes with it."""

    def __init__(self, stdout, exit):
        self.stdout, self.exit = stdout, exit
        lines = [line.partition(" ") for line in stdout.splitlines()]
        self.status = " ".join(rest for letter, _, rest in lines if letter == "s")
        self.costs = [int(rest) for letter, _, rest in lines if letter == "o"]
        self.values = " ".join(rest for letter, _, rest in lines if letter == "v").split()


class Answered(Lines):
    """What the command writes about a text."""

    def __init__(self, text, suffix, *options, **environment):
        with tempfile.NamedTemporaryFile("w", suffix=suffix) as file:
            file.write(text)
            file.flush()
            words = [str(BRIDGE), *options, file.name]
            ended = subprocess.run(words, capture_output=True, text=True, env=os.environ | environment)
        super().__init__(ended.stdout, ended.returncode)
        self.stderr = ended.stderr


class Searched(Lines):
    """The same without a process for the bridge, and with one worker, for many small texts."""

    def __init__(self, text, suffix):
        costs = []
        search = Search(READERS[suffix](text), Program(1), costs.append)
        status = search.run(None)
        lines = [f"o {cost}" for cost in costs] + list(answer_lines(status, search))
        super().__init__("\n".join(lines) + "\n", EXITS[status])


def true_literals(words):
    """The literals of `v` lines, as numbers."""
    return [int(word.replace("x", "")) for word in words if word != "0"]


def clause_holds(clause, literals):
    return any(literal in literals for literal in clause)


def assignments(variables):
    """Every assignment, as the list of its true literals."""
    for signs in itertools.product((-1, 1), repeat=variables):
        yield [sign * v for v, sign in enumerate(signs, 1)]


def cnf(variables, clauses):
    lines = [f"p cnf {variables} {len(clauses)}"] + [" ".join(map(str, clause + [0])) for clause in clauses]
    return "c drawn\n" + "\n".join(lines) + "\n"


def drawn_clauses(rng, variables, count):
    return [
        [rng.choice((-1, 1)) * v for v in rng.sample(range(1, variables + 1), rng.randint(1, 3))] for _ in range(count)
    ]


def pigeons(count, holes):
    """Pigeons that each need a hole of their own."""
    place = lambda p, h: p * holes + h + 1  # noqa: E731
    clauses = [[place(p, h) for h in range(holes)] for p in range(count)]
    pairs = itertools.combinations(range(count), 2)
    clauses += [[-place(p, h), -place(q, h)] for p, q in pairs for h in range(holes)]
    return cnf(count * holes, clauses)


class Satisfiability(unittest.TestCase):
    """CNF."""

    def test_drawn(self):
        rng = random.Random(1)
        for _ in range(DRAWN):
            clauses = drawn_clauses(rng, 5, rng.randint(1, 22))
            possible = any(all(clause_holds(c, a) for c in clauses) for a in assignments(5))
            got = Searched(cnf(5, clauses), ".cnf")
            self.assertEqual((got.status, got.exit), ("SATISFIABLE", 10) if possible else ("UNSATISFIABLE", 20))
            if possible:
                self.assertEqual(got.values[-1], "0")
                literals = true_literals(got.values)
                self.assertEqual([abs(literal) for literal in literals], [1, 2, 3, 4, 5])
                self.assertTrue(all(clause_holds(c, literals) for c in clauses))

    def test_known(self):
        self.assertEqual(Answered(pigeons(5, 4), ".cnf").exit, 20)
        self.assertEqual(Answered(pigeons(5, 5), ".cnf").exit, 10)
        for colours, status in ((2, "UNSATISFIABLE"), (3, "SATISFIABLE")):
            clauses = [[colours * v + c + 1 for c in range(colours)] for v in range(10)]
            clauses += [[-(colours * a + c + 1), -(colours * b + c + 1)] for a, b in PETERSEN for c in range(colours)]
            self.assertEqual(Answered(cnf(10 * colours, clauses), ".cnf").status, status)

    def test_forms(self):
        self.assertEqual(Answered("p cnf 0 0\n", ".cnf").stdout, "s SATISFIABLE\nv 0\n")
        self.assertEqual(Answered("p cnf 1 1\n0\n", ".cnf").status, "UNSATISFIABLE")
        self.assertEqual(Answered("p cnf 2 2\n1\n2 0 -1\nc between\n0\n%\n0\n", ".cnf").values, ["-1", "2", "0"])

    def test_budget(self):
        got = Answered(pigeons(9, 8), ".cnf", "--conflicts", "0", "--workers", "1")
        self.assertEqual((got.stdout, got.exit), ("s UNKNOWN\n", 0))


class PseudoBoolean(unittest.TestCase):
    """OPB."""

    def drawn(self, rng, has_objective):
        """Terms of the objective, if any, and constraints as terms, relation and bound, over four variables."""

        def terms():
            return [(rng.randint(-4, 4), rng.choice((-1, 1)) * rng.randint(1, 4)) for _ in range(rng.randint(1, 5))]

        sums = [(terms(), rng.choice((">=", ">=", "=", "<=")), rng.randint(-4, 4)) for _ in range(rng.randint(1, 4))]
        return terms() if has_objective else None, sums

    def text(self, objective, sums):
        def written(terms):
            return " ".join(f"{weight:+d} {'~' if literal < 0 else ''}x{abs(literal)}" for weight, literal in terms)

        lines = ["* #variable= 4 #constraint= %d" % len(sums)]
        lines += [f"min: {written(objective)} ;"] if objective is not None else []
        return "\n".join(lines + [f"{written(terms)} {relation} {bound} ;" for terms, relation, bound in sums]) + "\n"

    def test_drawn(self):
        rng = random.Random(2)
        tests = {">=": lambda a, b: a >= b, "=": lambda a, b: a == b, "<=": lambda a, b: a <= b}
        total = lambda terms, literals: sum(w for w, literal in terms if literal in literals)  # noqa: E731
        for place in range(2 * DRAWN):
            objective, sums = self.drawn(rng, place % 2)
            fits = lambda a: all(tests[r](total(t, a), b) for t, r, b in sums)  # noqa: B023, E731
            good = [a for a in assignments(4) if fits(a)]
            got = Searched(self.text(objective, sums), ".opb")
            if not good:
                self.assertEqual((got.stdout, got.exit), ("s UNSATISFIABLE\n", 20))
                continue
            literals = true_literals(got.values)
            self.assertIn(literals, good)
            if objective is None:
                self.assertEqual((got.status, got.exit, got.costs), ("SATISFIABLE", 10, []))
            else:
                self.assertEqual((got.status, got.exit), ("OPTIMUM FOUND", 30))
                self.assertEqual(got.costs[-1], min(total(objective, a) for a in good))
                self.assertEqual(got.costs[-1], total(objective, literals))

    def test_known(self):
        nodes = " ".join(f"+1 x{v + 1}" for v in range(10))
        cover = f"* #variable= 10 #constraint= 15\nmin: {nodes} ;\n"
        cover += "".join(f"+1 x{a + 1} +1 x{b + 1} >= 1 ;\n" for a, b in PETERSEN)
        self.assertEqual(Answered(cover, ".opb").costs[-1], 6)
        holes = "".join(" ".join(f"-1 x{p * 4 + h + 1}" for p in range(5)) + " >= -1 ;\n" for h in range(4))
        homes = "".join(" ".join(f"+1 x{p * 4 + h + 1}" for h in range(4)) + " >= 1 ;\n" for p in range(5))
        self.assertEqual(Answered("* #variable= 20 #constraint= 9\n" + holes + homes, ".opb").exit, 20)

    def test_forms(self):
        text = "* #variable= 3 #constraint= 1\n* more\nmin: +1*x1 + 2 x2\n -1 x3;\n1 x1 +1 x2>=1;"
        got = Answered(text, ".opb")
        self.assertEqual((got.costs[-1], got.values), (0, ["x1", "-x2", "x3"]))
        great = "* #variable= 2 #constraint= 1\n+99999999999999999999 x1 +99999999999999999999 x2 >= 5 ;\n"
        self.assertEqual(Answered(great, ".opb").exit, 10)


class Weighted(unittest.TestCase):
    """Weighted CNF, in both forms."""

    def test_drawn(self):
        rng = random.Random(3)
        for _ in range(DRAWN):
            hard = drawn_clauses(rng, 5, rng.randint(0, 8))
            soft = [(rng.randint(1, 9), clause) for clause in drawn_clauses(rng, 5, rng.randint(1, 9)) + [[5, -1]]]
            cost = lambda a: sum(w for w, c in soft if not clause_holds(c, a))  # noqa: B023, E731
            best = min((cost(a) for a in assignments(5) if all(clause_holds(c, a) for c in hard)), default=None)
            weighted = [("h", c) for c in hard] + soft
            new = "".join(f"{w} {' '.join(map(str, c))} 0\n" for w, c in weighted)
            old = f"p wcnf 5 {len(weighted)} 100\n" + new.replace("h", "100")
            for text, is_new in ((new, True), (old, False)):
                got = Searched("c drawn\n" + text, ".wcnf")
                if best is None:
                    self.assertEqual((got.stdout, got.exit), ("s UNSATISFIABLE\n", 20))
                    continue
                self.assertEqual((got.status, got.exit, got.costs[-1]), ("OPTIMUM FOUND", 30, best))
                literals = true_literals(got.values)
                if is_new:
                    literals = [v if bit == "1" else -v for v, bit in enumerate(got.values[0], 1)]
                self.assertEqual(cost(literals), best)
                self.assertTrue(all(clause_holds(c, literals) for c in hard))

    def test_known(self):
        # A cut of the Petersen graph has at most 12 of its 15 edges.
        cut = "".join(f"1 {a + 1} {b + 1} 0\n1 -{a + 1} -{b + 1} 0\n" for a, b in PETERSEN)
        self.assertEqual(Answered(cut, ".wcnf").costs[-1], 3)

    def test_no_top(self):
        self.assertEqual(Answered("p wcnf 1 2\n5 1 0\n3 -1 0\n", ".wcnf").costs[-1], 3)
        self.assertEqual(Answered("4 0\nh 1 0\n", ".wcnf").costs, [4])


class Errors(unittest.TestCase):
    """What is refused, with one line."""

    def refused(self, text, suffix, reason, stdout=""):
        got = Answered(text, suffix)
        self.assertEqual((got.exit, got.stdout, got.stderr.count("\n")), (1, stdout, 1), text)
        self.assertIn(reason, got.stderr)

    def faulty(self, text, suffix):
        with self.assertRaises(Refused, msg=text):
            READERS[suffix](text)

    def test_unsupported(self):
        head = "* #variable= 2 #constraint= 1\n"
        for text, reason in (
            ("min: +1 x1 ~x2 ;\n", "line 2: a product"),
            ("max: +1 x1 ;\n", "line 2: the format has no max"),
            ("soft: 4 ;\n", "line 2: soft constraints"),
            ("[4] +1 x1 >= 1 ;\n", "line 2: soft constraints"),
            ("min: +9999999999999999999 x1 ;\n", "the objective: the weights add up"),
            ("+5000000000000000000 x1 +1 x2 = 1 ;\n", "line 2: the weights add up"),
        ):
            self.refused(head + text, ".opb", reason, "s UNSUPPORTED\n")
        self.refused("p cnf 2000000 0\n", ".cnf", "more than 1048576 variables", "s UNSUPPORTED\n")

    def test_faulty(self):
        head = "* #variable= 2 #constraint= 1\n"
        for text in ("+1 x1 >= 1\n", "+1 x1 ;\n", "x1 >= 1 ;\n", "+1 x3 >= 1 ;\n", "+1 x0 >= 1 ;\n", "+1 y1 >= 1 ;\n"):
            self.faulty(head + text, ".opb")
        for text in ("", "p cnf 1\n", "p cnf 1 1\n2 0\n", "p cnf 1 1\n1\n", "p cnf 1 2\n1 0\n", "p cnf 1 1\n+-1 0\n"):
            self.faulty(text, ".cnf")
        for text in ("3 1\n", "h\n", "3 1 0 0\n", "-3 1 0\n", "p wcnf 1 1 5\n5 2 0\n", "p wcnf 1 2 5\n5 1 0\n"):
            self.faulty(text, ".wcnf")
        self.refused("p cnf 1 2\n1 0\n", ".cnf", "the file has 1 clauses where it says 2")

    def test_words(self):
        for words in ([], ["a.txt"], ["--workers", "17", "a.cnf"], ["--nothing", "a.cnf"], ["a.cnf", "b.cnf"]):
            ended = subprocess.run([str(BRIDGE), *words], capture_output=True, text=True)
            self.assertEqual((ended.returncode, ended.stdout, ended.stderr.count("\n")), (2, "", 1), words)

    def test_program(self):
        failed = Answered("p cnf 1 1\n1 0\n", ".cnf", CPSOLVE="/bin/false")
        self.assertEqual((failed.exit, failed.stdout), (1, "s UNKNOWN\n"))
        missing = Answered("p cnf 1 1\n1 0\n", ".cnf", CPSOLVE="/nowhere/cpsolve")
        self.assertEqual((missing.exit, missing.stdout, missing.stderr.count("\n")), (1, "", 1))

    def test_wrong_solution_is_seen(self):
        with tempfile.TemporaryDirectory() as folder:
            liar = Path(folder) / "liar"
            liar.write_text("#!/bin/sh\ncat >/dev/null\necho 'status: OPTIMAL'\necho 'solution: 0'\n")
            liar.chmod(0o755)
            got = Answered("p cnf 1 1\n1 0\n", ".cnf", CPSOLVE=str(liar))
        self.assertEqual((got.exit, got.stdout), (1, "s UNKNOWN\n"))


def children(pid):
    """The processes that a process has started."""
    return [int(word) for word in Path(f"/proc/{pid}/task/{pid}/children").read_text().split()]


def is_running(pid):
    try:
        return Path(f"/proc/{pid}/stat").read_text().rpartition(")")[2].split()[0] != "Z"
    except OSError:
        return False


def wait_for(condition, seconds=5):
    """The condition's value as soon as it is true, or what it is after so many seconds."""
    end = time.monotonic() + seconds
    while not (value := condition()) and time.monotonic() < end:
        time.sleep(0.02)
    return value


class Signals(unittest.TestCase):
    """No solver is left behind, however the bridge is ended."""

    def setUp(self):
        folder = tempfile.TemporaryDirectory()
        self.addCleanup(folder.cleanup)
        self.hard = Path(folder.name) / "hard.cnf"
        self.hard.write_text(pigeons(14, 13))
        self.cover = Path(folder.name) / "cover.opb"
        rng = random.Random(4)
        edges = rng.sample(list(itertools.combinations(range(1, 201), 2)), 900)
        nodes = " ".join(f"+1 x{v}" for v in range(1, 201))
        lines = [f"+1 x{a} +1 x{b} >= 1 ;" for a, b in edges]
        self.cover.write_text(f"* #variable= 200 #constraint= 900\nmin: {nodes} ;\n" + "\n".join(lines))

    def started(self, words):
        """The process of these words and, as soon as it has some, its children."""
        process = subprocess.Popen(words, stdout=subprocess.PIPE, text=True)
        self.addCleanup(process.stdout.close)
        return process, wait_for(lambda: children(process.pid))

    def test_terminated_and_interrupted(self):
        for one in (signal.SIGTERM, signal.SIGINT):
            process, solvers = self.started([str(BRIDGE), str(self.hard)])
            process.send_signal(one)
            self.assertEqual((process.communicate(timeout=5)[0], process.returncode), ("s UNKNOWN\n", 0))
            self.assertEqual(len(solvers), 1)
            self.assertFalse(is_running(solvers[0]))

    def test_best_solution_is_kept(self):
        process, _ = self.started([str(BRIDGE), str(self.cover)])
        lines = [process.stdout.readline()]
        process.send_signal(signal.SIGTERM)
        lines += process.communicate(timeout=5)[0].splitlines()
        self.assertEqual((process.returncode, "s SATISFIABLE" in lines), (10, True))
        costs = [int(line[2:]) for line in lines if line.startswith("o ")]
        literals = true_literals(" ".join(line[2:] for line in lines if line.startswith("v ")).split())
        self.assertEqual(sum(literal > 0 for literal in literals), costs[-1])

    def test_killed(self):
        process, solvers = self.started([str(BRIDGE), str(self.hard)])
        process.kill()
        process.wait()
        self.assertTrue(wait_for(lambda: not is_running(solvers[0])))

    def test_caller_gone(self):
        process, bridges = self.started(["/bin/sh", "-c", f"'{BRIDGE}' '{self.hard}'; true"])
        solvers = wait_for(lambda: children(bridges[0]))
        process.kill()
        process.wait()
        self.assertEqual(len(solvers), 1)
        self.assertTrue(wait_for(lambda: not is_running(solvers[0]) and not is_running(bridges[0])))


if __name__ == "__main__":
    unittest.main()
