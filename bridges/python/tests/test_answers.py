"""Answers that are known: of the models in the checkout's `examples/`, of the programs in
`bridges/python/examples/`, and of small models all of whose assignments are tried."""

import contextlib
import io
import itertools
import random
import re
import sys
import tempfile
import unittest
from pathlib import Path

import cpsolve
import definitions
import drawing
from cpsolve import cp_model_pb2
from google.protobuf import text_format
from programs import pigeons, stand_in

BRIDGE = Path(__file__).resolve().parent.parent
EXAMPLES = BRIDGE.parent.parent / "examples"
DRAWS = 8
sys.path.append(str(BRIDGE / "examples"))


def read(path):
    return text_format.Parse(path.read_text(), cp_model_pb2.CpModelProto())


def stated(path, field):
    """What the comment of an example says of a field of its response."""
    return re.findall(rf"^#   {field}: (\S+)", path.read_text(), re.MULTILINE)


class Examples(unittest.TestCase):
    def test_each_model_has_the_answer_of_its_comment(self):
        paths = sorted(EXAMPLES.glob("*.txt"))
        self.assertGreater(len(paths), 10)
        for path in paths:
            with self.subTest(path.name):
                model = read(path)
                response = cpsolve.solve(model)
                status = cp_model_pb2.CpSolverStatus.Name(response.status)
                self.assertEqual([status], stated(path, "status"))
                for value in stated(path, "objective_value"):
                    self.assertEqual(response.objective_value, float(value))
                core = list(map(int, stated(path, "sufficient_assumptions_for_infeasibility")))
                self.assertEqual(list(response.sufficient_assumptions_for_infeasibility), core)
                if response.solution:
                    self.assertTrue(definitions.is_solution(model, response.solution))

    def test_each_model_keeps_its_text(self):
        for path in sorted(EXAMPLES.glob("*.txt")):
            with self.subTest(path.name):
                model = read(path)
                cpsolve.validate(model)
                text = cpsolve.canonical_text(model)
                again = text_format.Parse(text, cp_model_pb2.CpModelProto())
                self.assertEqual(cpsolve.canonical_text(again), text)


class Programs(unittest.TestCase):
    def test_the_first_program_of_the_page_prints_what_it_says(self):
        page = (BRIDGE / "README.md").read_text()
        code = re.search(r"^```python\n(.*?)^```", page, re.DOTALL | re.MULTILINE)[1]
        said = io.StringIO()
        with contextlib.redirect_stdout(said):
            exec(code, {})
        self.assertEqual(said.getvalue().strip(), code.rpartition("# ")[2].strip())

    def test_job_shop(self):
        import jobshop

        model, _ = jobshop.job_shop()
        # As examples/jobshop.txt says.
        self.assertEqual(cpsolve.solve(model).objective_value, 11)

    def test_tour(self):
        import tour

        lengths = []
        for order in itertools.permutations(range(1, tour.TOWNS)):
            ways_of_order = itertools.pairwise([0, *order, 0])
            lengths.append(sum(tour.distance(*way) for way in ways_of_order))
        model, ways = tour.tour()
        response = cpsolve.solve(model)
        self.assertEqual(response.objective_value, min(lengths))
        towns = tour.towns_in_order(ways, response.solution)
        self.assertEqual(sorted(towns), [0, *range(tour.TOWNS)])

    def test_roster(self):
        import roster

        hours = [hour for _, hour in roster.shift_names_and_hours()]
        model, _ = roster.roster()
        self.assertEqual(cpsolve.solve(model).objective_value, least_points(roster, hours))


def least_points(roster, hours):
    """The points of the best roster, of all ways to give each shift to a clerk."""
    least, most = roster.LEAST_AND_MOST
    clerks, pairs = range(len(roster.CLERKS)), itertools.combinations(range(len(hours)), 2)
    close = [(i, j) for i, j in pairs if hours[j] - hours[i] < roster.HOURS + roster.REST]
    return min(
        sum(roster.POINTS[clerk][shift] for shift, clerk in enumerate(taken))
        for taken in itertools.product(clerks, repeat=len(hours))
        if all(least <= taken.count(clerk) <= most for clerk in clerks)
        and not any(taken[i] == taken[j] for i, j in close)
    )


class DrawnModels(unittest.TestCase):
    def test_each_kind_has_the_answer_of_its_definition(self):
        for kind, seed in itertools.product(drawing.KINDS, range(DRAWS)):
            with self.subTest(kind=kind, seed=seed):
                model = drawing.model(random.Random(f"{kind} {seed}"), kind)
                options = dict(workers=1 + seed % 4, seed=seed, interleave=seed % 2 == 0)
                self.compare(model, cpsolve.solve(model, **options))

    def compare(self, model, response):
        """Compares a response with all solutions of the model."""
        known = definitions.solutions(model)
        if not known:
            self.assertEqual(response.status, cp_model_pb2.INFEASIBLE, model)
            return
        self.assertEqual(response.status, cp_model_pb2.OPTIMAL, model)
        self.assertIn(tuple(response.solution), known, model)
        least = min(definitions.objective(model, values) for values in known)
        self.assertEqual(definitions.objective(model, response.solution), least, model)
        self.assertEqual(response.objective_value, least, model)


class Options(unittest.TestCase):
    def words_of(self, **options):
        """The arguments that the program gets."""
        with tempfile.TemporaryDirectory() as folder:
            words = Path(folder, "words")
            with stand_in(f"echo \"$@\" > '{words}'; echo 'status: UNKNOWN'"):
                cpsolve.solve(cp_model_pb2.CpModelProto(), **options)
            return words.read_text().split()

    def test_each_option_is_handed_on(self):
        self.assertEqual(self.words_of(), ["solve"])
        options = dict(workers=2, conflicts=3, seed=4, gap=5)
        words = "solve --workers 2 --conflicts 3 --seed 4 --gap 5".split()
        self.assertEqual(self.words_of(**options), words)
        self.assertEqual(self.words_of(**options, interleave=True), [*words, "--interleave"])

    def test_a_gap_is_kept(self):
        model = read(EXAMPLES / "tour.txt")
        response = cpsolve.solve(model, gap=100)
        self.assertEqual(response.status, cp_model_pb2.OPTIMAL)
        self.assertLessEqual(response.objective_value - response.best_objective_bound, 100)
        self.assertLessEqual(response.best_objective_bound, 76)

    def test_a_budget_ends_the_search(self):
        response = cpsolve.solve(pigeons(9), workers=1, conflicts=20)
        self.assertEqual(response.status, cp_model_pb2.UNKNOWN)

    def test_turns_give_the_same_response_again(self):
        model = read(EXAMPLES / "jobshop.txt")
        first, second = (cpsolve.solve(model, seed=7, interleave=True) for _ in range(2))
        self.assertEqual(first, second)

    def test_assumptions_stand_beside_those_of_the_model(self):
        model = cp_model_pb2.CpModelProto(assumptions=[2])
        for _ in range(3):
            model.variables.add(domain=[0, 1])
        model.constraints.add(bool_or={"literals": [-1, -2]})
        unchanged = model.SerializeToString()
        response = cpsolve.solve(model, assumptions=[0, 1])
        self.assertEqual(response.status, cp_model_pb2.INFEASIBLE)
        self.assertEqual(list(response.sufficient_assumptions_for_infeasibility), [0, 1])
        response = cpsolve.solve(model, assumptions=[0])
        self.assertEqual(list(response.solution), [1, 0, 1])
        self.assertEqual(model.SerializeToString(), unchanged)


if __name__ == "__main__":
    unittest.main()
