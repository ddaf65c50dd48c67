"""The options as MiniZinc means them."""

import time
import unittest

from fzn_cpsolve import flatzinc
from fzn_cpsolve.lifetime import Caller
from fzn_cpsolve.session import Options, Session
from fzn_cpsolve.solver import Solver
from fzn_cpsolve.translation import Translation

from .minizinc import solve, solve_flat

SQUARE = """
    var 0..3: x :: output_var;
    var 0..3: y :: output_var;
    constraint int_lin_le([1, 1], [x, y], 3);
    solve {goal};
"""
CHOICE = SQUARE.format(goal="satisfy")
GREATEST = """
    var 0..9: x :: output_var;
    var 0..9: y :: output_var;
    var 0..40: z :: output_var :: is_defined_var;
    constraint int_lin_le([1, 1], [x, y], 10);
    constraint int_lin_eq([2, 1, -1], [x, y, z], 0) :: defines_var(z);
    solve maximize z;
"""


def values(output: str, name: str) -> list[int]:
    """The values of a name in the solutions, in their order."""
    return [int(line.split(" = ")[1].rstrip(";")) for line in output.splitlines() if line.startswith(f"{name} = ")]


class Solutions(unittest.TestCase):
    """How many solutions are written, and how the answer ends."""

    def test_one(self) -> None:
        """One solution, and no claim that there are no others."""
        run = solve_flat(CHOICE)
        self.assertEqual((run.output.count("----------\n"), run.status), (1, 0))
        self.assertNotIn("==========", run.output)

    def test_count(self) -> None:
        """`-n 3`: three of the ten solutions."""
        run = solve_flat(CHOICE, "-n", "3")
        self.assertEqual(len(set(zip(values(run.output, "x"), values(run.output, "y")))), 3)
        self.assertNotIn("==========", run.output)

    def test_all(self) -> None:
        """`-a`, and `-n` with more than there are: all ten solutions, and that these are all."""
        for options in (["-a"], ["-n", "11"], ["-n", "0"]):
            run = solve_flat(CHOICE, *options)
            self.assertEqual(len(set(zip(values(run.output, "x"), values(run.output, "y")))), 10)
            self.assertEqual(run.last_line(), "==========")

    def test_best(self) -> None:
        """One best solution."""
        run = solve_flat(GREATEST)
        self.assertEqual(values(run.output, "z"), [19])
        self.assertEqual(run.last_line(), "==========")

    def test_better(self) -> None:
        """`-a` and `-i`: each solution is better than the one before, up to the best."""
        for option in ("-a", "-i"):
            run = solve_flat(GREATEST, option)
            found = values(run.output, "z")
            self.assertEqual(found, sorted(set(found)))
            self.assertEqual(found[-1], 19)
            self.assertEqual(run.last_line(), "==========")

    def test_budget(self) -> None:
        """`--conflicts`: with one conflict alone it is not shown that seven pigeons do not fit into six holes."""
        model = """int: n = 7; array[1..n] of var 1..n - 1: x;
            constraint forall(i, j in 1..n where i < j)(x[i] != x[j]); solve satisfy;"""
        run = solve(model, "--conflicts", "1", "-p", "1")
        self.assertIn("=====UNKNOWN=====", run.output)


class Budgets(unittest.TestCase):
    """How many conflicts the runs have that follow one another."""

    def next_budget(self, budget: int, seconds: float, left: float | None) -> int:
        """The budget after one that took so long, with so many seconds left."""
        deadline = None if left is None else time.monotonic() + left
        translation = Translation(flatzinc.read(CHOICE))
        solver = Solver("", [], Caller())
        return Session(translation, solver, Options(deadline=deadline)).next_budget(budget, seconds)

    def test_growth(self) -> None:
        """Four times as many, as long as that fits into the time that is left."""
        self.assertEqual(self.next_budget(100, 2.0, None), 400)
        self.assertEqual(self.next_budget(100, 0.1, 100), 400)

    def test_time(self) -> None:
        """No more than what fits into 0.7 of it, and no less than the first budget."""
        self.assertAlmostEqual(self.next_budget(6400, 10, 10), 4480, delta=50)
        self.assertEqual(self.next_budget(6400, 10, 0.01), 100)


class Statistics(unittest.TestCase):
    """`-s`, `-p`, `-r`, `-v` and `--model-only`."""

    def test_statistics(self) -> None:
        """`-s`: MiniZinc's own form."""
        run = solve_flat(GREATEST, "-s", "-p", "2", "-r", "7")
        found = run.statistics()
        self.assertEqual((found["objective"], found["objectiveBound"], found["solutions"]), ("19", "19", "1"))
        self.assertLess(float(found["solveTime"]), 60)
        self.assertEqual(run.last_line(), "%%%mzn-stat-end")

    def test_through_minizinc(self) -> None:
        """MiniZinc hands all of them on."""
        model = "var 1..9: x; constraint x * x > 30; solve minimize x;"
        run = solve(model, "-s", "-p", "2", "-r", "7", "-f", "-t", "20000", "--interleave", "--gap", "0")
        self.assertIn('"x" : 6', run.output)
        self.assertEqual(run.statistics()["objective"], "6")

    def test_model_only(self) -> None:
        """`--model-only`: the CpModel, without running the program."""
        run = solve_flat(GREATEST, "--model-only", "--cpsolve", "/nowhere")
        self.assertIn("objective { vars: [0, 1] coeffs: [-2, -1] scaling_factor: -1 }", run.output)
        self.assertEqual(run.status, 0)

    def test_gap(self) -> None:
        """`--gap`: a solution that may miss the best one is not called best where its bound is another."""
        run = solve_flat(GREATEST, "--gap", "100", "-s")
        found = run.statistics()
        is_closed = found["objective"] == found["objectiveBound"]
        self.assertEqual("==========" in run.output, is_closed)


class Sharing(unittest.TestCase):
    """One literal for each pair of variable and value."""

    def variables(self, *constraints: str) -> int:
        """How many variables the CpModel has."""
        declared = "".join(f"var 1..4: {name} :: output_var;\n" for name in "abcd")
        declared += "".join(f"var 0..4: {name};\n" for name in "uvw") + "var bool: p;\n"
        stated = "".join(f"constraint {constraint};\n" for constraint in constraints)
        return solve_flat(f"{declared}{stated}solve satisfy;\n", "--model-only").output.count("variables {")

    def test_counts_share(self) -> None:
        """Counting, tours, lists of bins and reified equalities have the same literals."""
        tour = "cpsolve_circuit([a,b,c,d], 1)"
        alone = self.variables(tour)
        # Four variables with three successors each.
        self.assertEqual(alone, 8 + 12)
        for other in (
            "fzn_count_eq([a,b,c], 4, u)",
            "fzn_global_cardinality([b,c,d], [1], [u])",
            "fzn_among(u, [a,b], {3})",
            "cpsolve_bin_packing_capa([9,9,9,9], 1, [a,b,c,d], [1,2,3,4])",
            "int_eq_reif(a, 3, p)",
            "int_ne_reif(a, 3, p)",
        ):
            # The variables cannot be their own successors, so no other pairs are left once the tour is said.
            with self.subTest(other=other):
                shared = self.variables(tour, other)
                self.assertLessEqual(shared, alone + self.variables(other) - 8)
                self.assertLess(shared, alone + 4)

    def test_inverse_shares(self) -> None:
        """One literal serves a pair and the one that is inverse to it."""
        inverse = "cpsolve_inverse([a,b], 1, [c,d], 1)"
        alone = self.variables(inverse)
        once = self.variables(inverse, "fzn_count_eq([a], 2, u)")
        both = self.variables(inverse, "fzn_count_eq([a], 2, u)", "fzn_count_eq([d], 1, v)")
        self.assertEqual((once, both), (alone + 1, alone + 1))


if __name__ == "__main__":
    unittest.main()
