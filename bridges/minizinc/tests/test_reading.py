"""Reads FlatZinc in all its forms, and computes with domains."""

import unittest

from fzn_cpsolve import domains, flatzinc
from fzn_cpsolve.errors import Refused
from fzn_cpsolve.flatzinc import Call, Element, FloatSet, IntSet, Name

MODEL = """% a comment; with a semicolon
predicate strange(var int: x, array [int] of set of int: y);
array [1..3] of int: numbers = [1, -0x1F, 0o17];
int: constant = 7; float: half = 0.5;
set of int: some = {3, 1, 2, 7}; % another one
array [1..2] of set of int: sets = [1..3, {}];
var -3..4: x :: output_var :: is_defined_var;
var {1,3,5}: 'y y';
var bool: b = true;
array [1..2] of var int: pair :: output_array([1..2]) = [x, 5];
array [1..2] of var 0..1: own;
constraint
  int_le(x, pair[2]) :: domain
  :: mzn_path("a; \\"b\\" % c");
constraint b;
solve :: seq_search([int_search([x], first_fail, indomain_min, complete)]) maximize x;
"""


class Reading(unittest.TestCase):
    """One model with all forms."""

    def setUp(self) -> None:
        self.model = flatzinc.read(MODEL)

    def test_constants(self) -> None:
        """Numbers in each base, floats and sets."""
        self.assertEqual(self.model.arrays["numbers"], [1, -31, 15])
        self.assertEqual(self.model.constants, {"constant": 7, "half": 0.5, "some": IntSet([(1, 3), (7, 7)])})
        self.assertEqual(self.model.arrays["sets"], [IntSet([(1, 3)]), IntSet()])

    def test_variables(self) -> None:
        """Domains, lines, values and what is written."""
        variables = self.model.variables
        self.assertEqual(variables["x"], ("int", [(-3, 4)], 7))
        self.assertEqual(variables["y y"], ("int", [(1, 1), (3, 3), (5, 5)], 8))
        self.assertEqual(self.model.equalities, [("b", True, 9)])
        self.assertEqual(self.model.outputs, [("x", None), ("pair", [IntSet([(1, 2)])])])
        self.assertEqual(self.model.arrays["own"], ["own[1]", "own[2]"])
        self.assertEqual(variables["own[2]"], ("int", [(0, 1)], 11))

    def test_constraints(self) -> None:
        """Over several lines, with annotations and strings."""
        first, second = self.model.constraints
        self.assertEqual((first.name, first.arguments, first.line), ("int_le", ["x", Element(Name("pair"), 2)], 12))
        self.assertEqual(first.annotations, ["domain", Call("mzn_path", ['a; \\"b\\" % c'])])
        self.assertEqual((second.name, second.arguments, second.line), ("bool_eq", ["b", True], 15))

    def test_goal(self) -> None:
        """The goal and the search."""
        self.assertEqual((self.model.goal, self.model.objective), ("maximize", "x"))
        (sequence,) = self.model.search
        self.assertEqual(sequence.arguments[0][0].arguments[1], "first_fail")

    def test_floats(self) -> None:
        """Sets of floats are told from those of whole numbers."""
        self.assertIsInstance(flatzinc.read("set of float: s = {1.5, 2};\n").constants["s"], FloatSet)
        self.assertIsInstance(flatzinc.read("set of float: s = 1.0..2.0;\n").constants["s"], FloatSet)

    def test_faults(self) -> None:
        """Each is refused with its line."""
        faults = ("var int x;", "constraint f(x;", "constraint f(x y);", "solve find x;", "array [1..2 of int: x;", ";", "\n=;")
        for text in faults:
            with self.subTest(text), self.assertRaisesRegex(Refused, r"^line \d+: "):
                flatzinc.read(text)


class Domains(unittest.TestCase):
    """Sets of numbers."""

    def test_sets(self) -> None:
        """What is in, in both, and in none."""
        some = domains.of_values([5, 1, 2, 9, 2])
        self.assertEqual(some, [(1, 2), (5, 5), (9, 9)])
        self.assertEqual(list(domains.values_of(some)), [1, 2, 5, 9])
        self.assertEqual(domains.intersection(some, [(2, 5), (8, 20)]), [(2, 2), (5, 5), (9, 9)])
        other = domains.complement(some)
        self.assertEqual(domains.intersection(some, other), [])
        self.assertEqual(domains.complement(other), some)
        self.assertEqual(domains.image(some, -1, 10), [(1, 1), (5, 5), (8, 9)])

    def test_ends(self) -> None:
        """The least and the greatest number stay where all numbers are moved."""
        least, greatest = domains.INT_MIN, domains.INT_MAX
        self.assertEqual(domains.shift([(least, 3), (7, greatest)], 2), [(least, 5), (9, greatest)])
        self.assertEqual(domains.shift([(greatest - 1, greatest - 1)], 2), [])


if __name__ == "__main__":
    unittest.main()
