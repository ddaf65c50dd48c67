"""Tests of `scripts/plan`: python3 -m unittest discover scripts

The plans are those that the heads of `examples/` state, and small ones made by hand.
"""

import os
import subprocess
import tempfile
import unittest
import xml.etree.ElementTree as ElementTree
from pathlib import Path

from planning.chart import packed
from planning.fit import Unfit, fit
from planning.model import Interval, read_model, read_response
from planning.textproto import TextError, read

TOP = Path(__file__).resolve().parents[2]
PLAN = TOP / "scripts" / "plan"
VARIABLES = "variables { domain: [0, 9] } " * 4
SVG = "{http://www.w3.org/2000/svg}"


def response(values, **stated):
    lines = ["status: OPTIMAL"] + [f"solution: {value}" for value in values]
    return "\n".join(lines + [f"{name}: {value}" for name, value in stated.items()]) + "\n"


def tour_values(order):
    """The arcs of `examples/tour.txt` that a tour takes."""
    after = dict(zip(order, order[1:] + order[:1]))
    return [int(after[i] == j) for i in range(6) for j in range(6) if i != j]


def run(*words, **options):
    return subprocess.run([str(options.pop("program", PLAN)), *words], capture_output=True, text=True, **options)


class Drawn(unittest.TestCase):
    """Pictures of whole models."""

    def drawn(self, model, answer):
        with tempfile.NamedTemporaryFile("w", suffix=".txt") as file:
            file.write(answer)
            file.flush()
            return run(str(TOP / "examples" / model), file.name)

    def notes(self, picture):
        return [title.text for title in ElementTree.fromstring(picture).iter(SVG + "title")]

    def test_bars(self):
        ended = self.drawn("project.txt", response([0, 3, 0, 6, 5, 4, 8], objective_value=8, best_objective_bound=8))
        self.assertEqual(ended.returncode, 0, ended.stderr)
        notes = self.notes(ended.stdout)
        self.assertIn("0: 0 to 3, demand 2", notes)
        self.assertIn("4: 5 to 8, demand 2", notes)
        self.assertIn("Not tested: that no plan is better.", ended.stdout)
        self.assertIn("not tested: that no plan is better", ended.stderr)

    def test_ring(self):
        ended = self.drawn("tour.txt", response(tour_values([0, 2, 1, 5, 3, 4]), objective_value=76))
        self.assertEqual(ended.returncode, 0, ended.stderr)
        arcs = [note for note in self.notes(ended.stdout) if " to " in note]
        self.assertEqual(arcs, ["0 to 2", "2 to 1", "1 to 5", "5 to 3", "3 to 4", "4 to 0"])

    def test_two_circles_are_no_tour(self):
        values = [0] * 30
        for tail, head in ((0, 1), (1, 0), (2, 3), (3, 4), (4, 5), (5, 2)):
            values[tail * 5 + head - (head > tail)] = 1
        self.refused(self.drawn("tour.txt", response(values)), "constraint 0 (circuit) does not hold")

    def test_nothing_to_draw(self):
        self.refused(self.drawn("tank.txt", response([2, 4, 6])), "nothing to draw")

    def test_what_does_not_fit(self):
        self.refused(self.drawn("project.txt", response([0, 3, 0, 6, 5, 4, 17])), "outside its domain")
        self.refused(self.drawn("project.txt", response([0, 0, 0, 6, 5, 4, 8])), "(cumulative)")
        self.refused(self.drawn("project.txt", response([0, 3])), "2 values for 7 variables")
        self.refused(self.drawn("project.txt", "status: INFEASIBLE"), "INFEASIBLE")
        wrong = response([0, 3, 0, 6, 5, 4, 8], objective_value=7)
        self.refused(self.drawn("project.txt", wrong), "objective's value is 8, not 7")
        self.refused(self.drawn("project.txt", "solution: {"), "no response")

    def refused(self, ended, reason):
        self.assertEqual((ended.returncode, ended.stdout), (1, ""))
        self.assertIn(reason, ended.stderr)
        self.assertEqual(ended.stderr.count("\n"), 1)


class Words(unittest.TestCase):
    """The words of the command, and how it is called."""

    def test_wrong_words(self):
        for words in ([], ["-x"], ["a", "b", "c"]):
            ended = run(*words)
            self.assertEqual((ended.returncode, ended.stdout, ended.stderr.count("\n")), (2, "", 1))

    def test_help_through_a_link_from_elsewhere(self):
        with tempfile.TemporaryDirectory() as folder:
            link = Path(folder) / "draw"
            link.symlink_to(PLAN)
            ended = run("-h", program=link, cwd=folder)
        self.assertEqual(ended.returncode, 0)
        self.assertIn("usage: scripts/plan MODEL [RESPONSE]", ended.stdout)

    def test_missing_file(self):
        ended = run("/nowhere/model.txt")
        self.assertEqual((ended.returncode, ended.stderr.count("\n")), (1, 1))

    def test_program_that_fails(self):
        model = str(TOP / "examples" / "project.txt")
        ended = run(model, env=os.environ | {"CPSOLVE": "/bin/false"})
        self.assertEqual((ended.returncode, ended.stderr.count("\n")), (1, 1))


class Text(unittest.TestCase):
    """The text format."""

    def test_forms(self):
        tree = read("a: 017 b: 0xF # comment }\n c: [1, -2] d < e: 'x' \"\\n\\101\" >; f { g: 1e+2, g: 2. }")
        self.assertEqual((tree.number("a"), tree.number("b"), tree.numbers("c")), (15, 15, [1, -2]))
        self.assertEqual(tree.message("d").text("e"), "x\nA")
        self.assertEqual(tree.message("f").numbers("g"), [100, 2])

    def test_faults(self):
        for text in ("a", "a:", "a: [1", "a { b: 1", "}", "a 1", "a: 1 }", "a: ?", '"x"', "a: [1 2]", "a: 'x"):
            with self.assertRaises(TextError, msg=text):
                read(text)
        with self.assertRaises(TextError):
            read("a: 1.5").number("a")


class Kinds(unittest.TestCase):
    """Each kind of constraint, at values where it holds and at values where it does not."""

    def fits(self, constraint, values):
        model = read_model(VARIABLES + constraint)
        try:
            fit(model, read_response(response(values)))
        except Unfit:
            return False
        return True

    def test_kinds(self):
        one = "exprs { vars: 0 coeffs: 1 } exprs { vars: 1 coeffs: 1 }"
        cases = [
            ("bool_or { literals: [0, -2] }", [0, 0, 0, 0], [0, 1, 0, 0]),
            ("bool_and { literals: [0, 1] }", [1, 1, 0, 0], [1, 0, 0, 0]),
            ("at_most_one { literals: [0, 1] }", [0, 0, 0, 0], [1, 1, 0, 0]),
            ("exactly_one { literals: [0, 1] }", [0, 1, 0, 0], [0, 0, 0, 0]),
            ("bool_xor { literals: [0, 1, 2] }", [1, 1, 1, 0], [1, 1, 0, 0]),
            ("linear { vars: [0, -2] coeffs: [2, 1] domain: [3, 3, 5, 9] }", [3, 1, 0, 0], [2, 0, 0, 0]),
            ("int_div { target { vars: 2 coeffs: 1 } %s }" % one, [7, 2, 3, 0], [7, 2, 4, 0]),
            ("int_mod { target { vars: 2 coeffs: -1 } exprs { vars: 0 coeffs: -1 } exprs { offset: 4 } }", [7, 0, 3, 0],
             [7, 0, 1, 0]),
            ("int_prod { target { vars: 2 coeffs: 1 } %s }" % one, [2, 4, 8, 0], [2, 4, 9, 0]),
            ("lin_max { target { vars: 2 coeffs: 1 } %s }" % one, [2, 4, 4, 0], [2, 4, 2, 0]),
            ("element { linear_index { vars: 2 coeffs: 1 } linear_target { offset: 5 } %s }" % one, [3, 5, 1, 0],
             [5, 3, 1, 0]),
            ("element { index: 2 target: 3 vars: [0, 1] }", [3, 5, 0, 3], [3, 5, 2, 3]),
            ("table { %s values: [1, 2, 3, 4] }" % one, [3, 4, 0, 0], [2, 3, 0, 0]),
            ("table { vars: [0, 1] values: [1, 2, 3, 4] negated: true }", [2, 3, 0, 0], [3, 4, 0, 0]),
            ("all_diff { %s }" % one, [3, 4, 0, 0], [3, 3, 0, 0]),
            ("reservoir { max_level: 2 time_exprs { vars: 0 coeffs: 1 } time_exprs { vars: 1 coeffs: 1 } "
             "level_changes { offset: 2 } level_changes { offset: -1 } }", [1, 1, 0, 0], [2, 1, 0, 0]),
            ("inverse { f_direct: [0, 1] f_inverse: [2, 3] }", [1, 0, 1, 0], [1, 0, 0, 1]),
            ("automaton { starting_state: 0 final_states: 1 transition_tail: [0, 1] transition_label: [1, 2] "
             "transition_head: [1, 1] %s }" % one, [1, 2, 0, 0], [1, 1, 0, 0]),
        ]  # fmt: skip
        for kind, good, bad in cases:
            self.assertTrue(self.fits("constraints { %s }" % kind, good), kind)
            self.assertFalse(self.fits("constraints { %s }" % kind, bad), kind)
            enforced = "constraints { enforcement_literal: 3 %s }" % kind
            if bad[3] != 1:
                self.assertTrue(self.fits(enforced, bad), kind)

    def test_intervals(self):
        spans = "".join(
            "constraints { interval { start { vars: %d coeffs: 1 } size { offset: 2 } "
            "end { vars: %d coeffs: 1 offset: 2 } } } " % (v, v)
            for v in range(4)
        )
        apart = spans + "constraints { no_overlap { intervals: [0, 1] } }"
        self.assertTrue(self.fits(apart, [2, 0, 0, 0]))
        self.assertFalse(self.fits(apart, [1, 0, 0, 0]))
        boxes = spans + "constraints { no_overlap_2d { x_intervals: [0, 1] y_intervals: [2, 3] } }"
        self.assertTrue(self.fits(boxes, [1, 0, 0, 2]))
        self.assertFalse(self.fits(boxes, [1, 0, 0, 1]))
        self.assertFalse(self.fits("constraints { interval { size { offset: 1 } } }", [0, 0, 0, 0]))

    def test_unknown_kind_is_named(self):
        model = read_model(VARIABLES + "constraints { routes { } }")
        self.assertEqual(fit(model, read_response(response([0] * 4)))[1], ["constraints of the kind routes"])


class Packing(unittest.TestCase):
    """Bars of a `cumulative`."""

    def test_no_unit_is_used_twice(self):
        spans = [(0, 3, 2), (3, 5, 3), (0, 4, 1), (6, 8, 2), (5, 8, 2), (4, 6, 1)]
        uses = [(Interval(k, str(k), s, e, e - s, True), d) for k, (s, e, d) in enumerate(spans)]
        bars = packed(uses)
        used = [(t, u) for b in bars for t in range(b.interval.start, b.interval.end) for u in range(b.low, b.high)]
        self.assertEqual(len(used), len(set(used)))
        self.assertEqual(len(used), sum((e - s) * d for s, e, d in spans))
        self.assertLessEqual(max(b.high for b in bars), 4)


if __name__ == "__main__":
    unittest.main()
