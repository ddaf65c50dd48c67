"""How a model is read, cut, and written again."""

import itertools
import random
import unittest

from cpsolve_spread.cubes import cut, median
from cpsolve_spread.model import GREATEST, LEAST, Refused, read_model
from models import kind, knapsack, objective, variables
from world import stand_in

SHOP = """\
variables {
  name: "s: [1, 2]"
  domain: [0, 9]
}
variables {
  domain: [0, 9]
}
constraints {
  interval {
    start {
      vars: [0]
      coeffs: [1]
    }
    end {
      vars: [0]
      coeffs: [1]
      offset: 2
    }
    size {
      offset: 2
    }
  }
}
constraints {
  enforcement_literal: [-2]
  no_overlap {
    intervals: [0]
  }
}
"""


class Reading(unittest.TestCase):
    def test_parts_come_back_as_they_were(self):
        text = knapsack([3, 4], [5, 6], 5) + "search_strategy {\n}\nsolution_hint {\n  vars: [0]\n  values: [1]\n}\n"
        model = read_model(text)
        self.assertEqual(model.domains, [[(0, 1)], [(0, 1)]])
        self.assertEqual(model.objective.terms, [(-5, 0), (-6, 1)])
        whole = model.cube((), None).decode()
        self.assertTrue(whole.startswith(model.variables + model.constraints + "objective {"))
        self.assertTrue(whole.endswith(text[text.index("search_strategy") :]))

    def test_who_reads_an_interval_reads_its_variables(self):
        self.assertEqual(read_model(SHOP).readers, [2, 1])

    def test_assumptions_are_refused(self):
        with self.assertRaisesRegex(Refused, "assumptions"):
            read_model(variables((0, 1)) + "assumptions: [0]\n")

    def test_objective(self):
        text = variables((0, 4), (1, 2)) + objective([0, -2], [2, 3], offset=7, scaling_factor=-2, domain=[-5, 1, 4, 9])
        shown = read_model(text).objective
        self.assertEqual(shown.total([4, 2]), 2)
        self.assertEqual(shown.shown(2), -18)
        self.assertIn(f"domain: {[-5, 1, 4, 5]} }}", shown.text(6))
        self.assertIn(f"domain: {[-5, 1]} }}", shown.text(4))
        # An empty list would allow every sum.
        self.assertIn(f"domain: {[LEAST, LEAST]} }}", shown.text(-5))

    def test_least_sum(self):
        model = read_model(variables((0, 4), (1, 2)) + objective([0, -2], [2, 3]))
        self.assertEqual(model.least(()), -6)
        self.assertEqual(model.least(((0, 3, GREATEST), (1, LEAST, 1))), 3)


class Cutting(unittest.TestCase):
    def test_median_leaves_values_on_both_sides(self):
        self.assertEqual(median([(0, 1)]), 0)
        self.assertEqual(median([(-5, -5), (3, 3)]), -5)
        self.assertEqual(median([(0, 0), (4, 9)]), 5)

    def test_each_assignment_lies_in_one_cube(self):
        rng = random.Random(1)
        for _ in range(30):
            ranges = [(a, a + rng.randint(0, 4)) for a in (rng.randint(-3, 3) for _ in range(4))]
            read = [kind("bool_or", literals=rng.sample(range(4), 2)) for _ in range(rng.randint(0, 6))]
            cubes = cut(read_model(variables(*ranges) + "".join(read)), rng.randint(1, 40))
            # Values outside the domains are covered too.
            for values in itertools.product(*(range(a - 1, b + 2) for a, b in ranges)):
                holding = [cuts for cuts in cubes if all(a <= values[v] <= b for v, a, b in cuts)]
                self.assertEqual(len(holding), 1)

    def test_as_many_as_asked_for(self):
        model = read_model(knapsack([1] * 7, [1] * 7, 3))
        self.assertEqual([len(cut(model, count)) for count in (1, 2, 7, 32, 1000)], [1, 2, 7, 32, 128])
        self.assertEqual(cut(read_model(""), 8), [()])

    def test_most_read_variables_first(self):
        text = variables((0, 1), (0, 7), (0, 1)) + kind("bool_or", literals=[0, 2]) + kind("bool_or", literals=[2])
        cubes = cut(read_model(text), 8)
        self.assertEqual([[one.variable for one in cuts] for cuts in cubes], [[2, 0, 1]] * 8)

    def test_a_cube_is_the_model_with_linear_constraints(self):
        text = knapsack([2, 3, 4], [3, 4, 5], 6)
        model = read_model(text)
        for cuts in cut(model, 4):
            cube = stand_in.read_model(model.cube(cuts, -3).decode())
            self.assertEqual([one.kind for one in cube.constraints], ["linear"] * 3)
            self.assertEqual(cube.objective.domain, [(LEAST, -4)])


if __name__ == "__main__":
    unittest.main()
