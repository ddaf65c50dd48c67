"""What the search sends, believes and counts, with machines in this process."""

import random
import tempfile
import unittest
from pathlib import Path
from unittest import mock

from cpsolve_spread import search as searching_module
from cpsolve_spread.journal import Journal
from cpsolve_spread.model import GREATEST, Refused
from cpsolve_spread.response import Status
from cpsolve_spread.search import Check
from models import drawn_model, kind, knapsack, objective, pigeons, variables, without_solution
from world import Machines, counts, search, stand_in

# The best takes the items of weight 2 and 4 (worth 3 + 6 = 9), or those of 1 and 5.
ITEMS = knapsack([5, 4, 3, 2, 1], [7, 6, 4, 3, 2], 6)
BEST = -9


class Answers(unittest.TestCase):
    def test_drawn_models(self):
        rng = random.Random(1)
        for _ in range(25):
            text = drawn_model(rng)
            known = search(text, Machines(a=None, b=None), rng.randint(1, 9))[0].known
            self.assertEqual(without_solution(known.response()), without_solution(stand_in.answer(text, None)), text)

    def test_comment_says_who_is_believed(self):
        known = search(ITEMS, Machines(a=None, b=None))[0].known
        self.assertEqual(list(known.response())[-1], "# cubes: 6 verified")
        known = search(ITEMS, Machines(a=None), check=Check.NEVER)[0].known
        self.assertEqual(list(known.response())[-1], "# cubes: 0 verified, 6 by the word of a")

    def test_model_without_variables(self):
        self.assertEqual(search("", Machines(a=None))[0].known.status, Status.OPTIMAL)

    def test_solution_ends_the_search_where_nothing_is_minimised(self):
        machines = Machines(a=None)
        known = search(variables(*[(0, 1)] * 6), machines, 32)[0].known
        self.assertEqual((known.status, len(machines.sent)), (Status.OPTIMAL, 1))

    def test_best_goes_along(self):
        machines = Machines(a=None)
        searching, _ = search(ITEMS, machines, 16)
        self.assertEqual(searching.known.total, BEST)
        asked = [stand_in.read_model(text).objective.domain for _, text, _ in machines.sent]
        ends = [domain[-1][1] if domain else GREATEST for domain in asked]
        self.assertEqual(ends, sorted(ends, reverse=True))
        self.assertEqual((ends[0], ends[-1]), (GREATEST, BEST - 1))


class Budgets(unittest.TestCase):
    """A conflict lets the stand-in try ten assignments, of all that the model has."""

    def test_grow_by_four_behind_all_others(self):
        machines = Machines(a=None)
        with mock.patch.object(searching_module, "FIRST_BUDGET", 1):
            searching, _ = search(pigeons(3), machines, 4)
        budgets = [budget for _, _, budget in machines.sent]
        self.assertEqual(searching.known.status, Status.INFEASIBLE)
        self.assertEqual(budgets, [1] * 4 + [4] * 4 + [16] * 4)

    def test_end_where_they_are_told_to(self):
        for text, status in ((pigeons(3), Status.UNKNOWN), (ITEMS, Status.FEASIBLE)):
            machines = Machines(a=None, b=None)
            searching, _ = search(text, machines, 2, conflicts=1)
            self.assertEqual(searching.known.status, status)
            self.assertEqual([budget for _, _, budget in machines.sent], [1, 1])

    def test_bound_rests_on_open_cubes(self):
        text = variables((0, 63), (0, 1)) + kind("linear", vars=(0, 1), coeffs=(1, 1), domain=(5, 90))
        known = search(text + objective([0], [1]), Machines(a=None), 2, conflicts=1)[0].known
        # Neither half is closed by ten trials, and of the lower one the domains allow 0.
        self.assertEqual((known.status, known.total, known.bound()), (Status.FEASIBLE, 4, 0))


class Belief(unittest.TestCase):
    """One machine misbehaves, and the answer is right."""

    def solved(self, **faults):
        machines = Machines(**faults)
        searching, _ = search(ITEMS, machines)
        self.assertEqual((searching.known.status, searching.known.total), (Status.OPTIMAL, BEST))
        return searching, machines

    def test_wrong_answer_is_refused_and_run_elsewhere(self):
        for fault in ("forge", "lie", "stammer"):
            searching, machines = self.solved(bad=fault, good=None)
            self.assertEqual(counts(searching), {None: 6})
            # Once it was refused where another machine was verified, it is sent no more.
            self.assertLess([name for name, _, _ in machines.sent].count("bad"), 4)

    def test_solution_that_is_none_and_no_answer(self):
        for fault in ("invent", "babble", "fail"):
            searching, machines = self.solved(bad=fault, good=None)
            self.assertEqual(counts(searching), {None: 6})
            self.assertEqual([name for name, _, _ in machines.sent].count("bad"), 1)

    def test_refused_twice_is_by_the_word_of_the_second(self):
        searching, machines = self.solved(a="stammer", b="unlogged")
        self.assertEqual(sum(counts(searching).values()), 6)
        self.assertNotIn(None, counts(searching))
        self.assertEqual(len(machines.sent), 12)
        runs = {}
        for name, text, _ in machines.sent:
            runs.setdefault(text.partition("objective")[0], []).append(name)
        self.assertEqual({tuple(sorted(names)) for names in runs.values()}, {("a", "b")})

    def test_refused_where_nobody_else_is(self):
        searching, machines = self.solved(a="stammer")
        self.assertEqual((counts(searching), len(machines.sent)), ({"a": 6}, 6))

    def test_log_that_does_not_come(self):
        machines = Machines(a="unlogged", b="unlogged")
        searching, program = search(ITEMS, machines, check=Check.UNLESS_TOO_LARGE)
        self.assertEqual((len(machines.sent), sum(counts(searching).values())), (6, 6))
        self.assertNotIn(None, counts(searching))

    def test_no_check(self):
        machines = Machines(a=None)
        searching, program = search(pigeons(3), machines, check=Check.NEVER)
        self.assertEqual((searching.known.status, program.checked), (Status.INFEASIBLE, []))
        # A solution is tested all the same.
        searching, _ = search(ITEMS, Machines(a="invent", b=None), check=Check.NEVER)
        self.assertEqual((searching.known.total, counts(searching)), (BEST, {"b": 6}))


class Faults(unittest.TestCase):
    def test_dead_and_forgetful_machines(self):
        for fault in ("die", "forget"):
            searching, _ = search(ITEMS, Machines(bad=fault, good=None))
            self.assertEqual((searching.known.total, counts(searching)), (BEST, {None: 6}))

    def test_hanging_machine_is_overtaken(self):
        with mock.patch.object(searching_module, "LOOK_EVERY", 0.05):
            searching, _ = search(ITEMS, Machines(bad="hang", good=None, better=None), patience=0.1)
        self.assertEqual((searching.known.total, counts(searching)), (BEST, {None: 6}))
        self.assertEqual(searching.shunned, {"bad"})

    def test_cube_that_nobody_answers_is_given_up(self):
        searching, _ = search(ITEMS, Machines(a="fail", b="babble"), 2)
        self.assertEqual((searching.known.status, len(searching.given_up)), (Status.UNKNOWN, 2))
        self.assertRegex(searching.given_up[0], "^cube [01]: [ab]: the program ")


class Journals(unittest.TestCase):
    def setUp(self):
        folder = tempfile.TemporaryDirectory()
        self.addCleanup(folder.cleanup)
        self.name = str(Path(folder.name, "journal"))

    def solve(self, machines, **settings):
        journal = Journal(self.name, ITEMS)
        try:
            return search(ITEMS, machines, journal.cubes or 16, journal, **settings)[0]
        finally:
            journal.file.close()

    def test_goes_on_from_each_line(self):
        self.solve(Machines(a=None))
        whole = Path(self.name).read_text().splitlines(keepends=True)
        self.assertEqual(len([line for line in whole if "closed" in line]), 16)
        for lines in range(1, len(whole) + 1):
            # The last line is not whole, as if the coordinator was killed while it wrote.
            Path(self.name).write_text("".join(whole[:lines])[: None if lines == len(whole) else -3])
            closed = sum("closed" in line for line in Path(self.name).read_text().splitlines(keepends=True)
                         if line.endswith("\n"))  # fmt: skip
            machines = Machines(a=None)
            known = self.solve(machines).known
            self.assertEqual((known.status, known.total, known.closed[None]), (Status.OPTIMAL, BEST, 16))
            self.assertEqual(len(machines.sent), 16 - closed)

    def test_words_are_kept(self):
        self.solve(Machines(a=None), check=Check.NEVER)
        known = self.solve(Machines(b=None)).known
        self.assertEqual(known.closed, {"a": 16})

    def test_refused(self):
        journal = Journal(self.name, ITEMS)
        with self.assertRaisesRegex(Refused, "another process"):
            Journal(self.name, ITEMS)
        journal.begin(4)
        journal.file.close()
        for canonical in (pigeons(3), ITEMS + " "):
            with self.assertRaisesRegex(Refused, "no journal of this model"):
                Journal(self.name, canonical)
        with self.assertRaisesRegex(Refused, "Is a directory"):
            Journal("/tmp", ITEMS)

    def test_other_files_stay_as_they_are(self):
        for text in ("precious", "{}\n", '{"model": 3}\nprecious', "\n"):
            Path(self.name).write_text(text)
            with self.assertRaisesRegex(Refused, "no journal of this model"):
                Journal(self.name, ITEMS)
            self.assertEqual(Path(self.name).read_text(), text)


if __name__ == "__main__":
    unittest.main()
