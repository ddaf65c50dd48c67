"""What cannot be said is refused by name and line, with status 1 and nothing on standard output but MiniZinc's word."""

import os
import tempfile
import unittest
from pathlib import Path

from .minizinc import solve, solve_flat

# A model, and what has to stand in the cause.
REFUSED = {
    "a float": ("\nvar 0.0..1.0: x;\nsolve satisfy;", "line 2: variable x is a float"),
    "a set": ("var set of 1..3: s;\nsolve satisfy;", "line 1: variable s is a set"),
    "an unknown constraint": ("var 1..3: x;\n\nconstraint strange(x);\nsolve satisfy;", "line 3: strange: there is no such"),
    "a float constraint": ("constraint float_le(1.0, 2.0);\nsolve satisfy;", "line 1: float_le: floats"),
    "a set constraint": ("constraint set_card({1}, 1);\nsolve satisfy;", "line 1: set_card: set variables"),
    "a domain": ("var 0..9223372036854775807: x;\nsolve satisfy;", "line 1: variable x may be from 0 to"),
    "a sum": (
        "var 0..4000000000: x;\nvar 0..4000000000: y;\nconstraint int_lin_le([4000000000, 1], [x, y], 5);\nsolve satisfy;",
        "line 3: int_lin_le: its sum may reach",
    ),
    "a product": (
        "var 0..4000000000: x;\nvar 0..9: y;\nconstraint int_times(x, x, y);\nsolve satisfy;",
        "line 3: int_times: its product may reach",
    ),
    "a demand": (
        "var -1..2: x;\nconstraint fzn_cumulative([0], [1], [x], 3);\nsolve satisfy;",
        "line 2: fzn_cumulative: a demand that may be below 0",
    ),
    "no variable": ("constraint int_le(y, 3);\nsolve satisfy;", "line 1: int_le: y is no variable"),
    "no array": ("var 1..3: x;\nconstraint array_bool_xor(x);\nsolve satisfy;", "line 2: array_bool_xor: an argument"),
    "too few arguments": ("var 1..3: x;\nconstraint int_le(x);\nsolve satisfy;", "line 2: int_le: its arguments"),
    "no FlatZinc": ("var 1..3: x;\nconstraint int_le(x, );\nsolve satisfy;", "line 2:"),
    "no semicolon": ("var 1..3: x;\nsolve satisfy", "line 2:"),
    "a power": (
        "var 0..9999: x;\nvar 0..9999: y;\nconstraint int_pow(x, x, y);\nsolve satisfy;",
        "line 3: int_pow: a power with",
    ),
}
SMALL = "var 1..3: x :: output_var;\nsolve satisfy;\n"


class Errors(unittest.TestCase):
    """What is refused."""

    def test_models(self) -> None:
        """Each is refused by name and line."""
        for what, (model, cause) in REFUSED.items():
            with self.subTest(what):
                run = solve_flat(model)
                self.assertEqual((run.output, run.status), ("=====ERROR=====\n", 1), run.errors)
                self.assertTrue(run.errors.startswith(f"cpsolve: model.fzn: {cause}"), run.errors)
                self.assertEqual(run.errors.count("\n"), 1)

    def test_through_minizinc(self) -> None:
        """MiniZinc shows the cause and fails."""
        run = solve("var 0.0..1.0: x; constraint x > 0.5; solve satisfy;")
        self.assertIn("=====ERROR=====", run.output)
        self.assertIn("a float, and cpsolve has whole numbers and Booleans", run.errors)
        self.assertNotEqual(run.status, 0)

    def test_no_program(self) -> None:
        """One line says how the program is found."""
        run = solve_flat(SMALL, "--cpsolve", "/nowhere/cpsolve")
        self.assertEqual((run.output, run.status), ("=====ERROR=====\n", 1))
        self.assertIn("the program /nowhere/cpsolve was not started", run.errors)

    def test_strange_programs(self) -> None:
        """A program that fails, or writes no answer, is no answer."""
        for script, cause in (("exit 5", "ran out of memory"), ("exit 2", "does not know"), ("exit 0", "wrote no answer")):
            with self.subTest(script), tempfile.TemporaryDirectory() as room:
                program = Path(room, "cpsolve")
                program.write_text(f"#!/bin/sh\ncat >/dev/null\n{script}\n")
                os.chmod(program, 0o755)
                run = solve_flat(SMALL, "--cpsolve", str(program))
                self.assertEqual((run.output, run.status), ("=====ERROR=====\n", 1))
                self.assertIn(cause, run.errors)

    def test_broken_rule(self) -> None:
        """A rule of a CpModel that is broken all the same is said of the constraint that it comes from."""
        with tempfile.TemporaryDirectory() as room:
            program = Path(room, "cpsolve")
            answer = "status: MODEL_INVALID\\n# invalid V6 at constraint 0\\n"
            program.write_text(f"#!/bin/sh\ncat >/dev/null\nprintf '{answer}'\nexit 1\n")
            os.chmod(program, 0o755)
            model = "var 1..3: x;\nvar 1..3: y;\nconstraint int_lt(x, y);\nsolve satisfy;\n"
            run = solve_flat(model, "--cpsolve", str(program))
            self.assertEqual(run.errors, "cpsolve: model.fzn: line 3: int_lt: it breaks rule V6 of cpsolve\n")

    def test_unbounded(self) -> None:
        """Where nothing bounds a variable nothing is claimed, but where what is left out could only be worse."""
        free = "var int: x :: output_var;\nvar 0..1: y :: output_var;\n"
        none = f"{free}constraint int_lin_ne([1], [y], 0);\nconstraint int_lin_ne([1], [y], 1);\nsolve satisfy;\n"
        run = solve_flat(none)
        self.assertEqual(run.output, "=====UNKNOWN=====\n")
        self.assertIn("nothing bounds x", run.errors)
        run = solve_flat("var int: x :: output_var;\nconstraint int_le(3, x);\nsolve minimize x;\n")
        self.assertEqual(run.output, "x = 3;\n----------\n==========\n")
        run = solve_flat("var int: x :: output_var;\nconstraint int_le(3, x);\nsolve maximize x;\n")
        self.assertNotIn("==========", run.output)

    def test_unbounded_parts(self) -> None:
        """Parts of a sum that is minimised need no greatest value where a solution shows that greater ones are worse."""
        parts = "var int: x :: output_var;\nvar int: y :: output_var;\nvar int: z :: is_defined_var;\n"
        parts += "constraint int_le(0, x);\nconstraint int_le(0, y);\nconstraint int_lin_le([-2, -1], [x, y], -7);\n"
        parts += "constraint int_lin_eq([3, 2, -1], [x, y, z], 0) :: defines_var(z);\nsolve minimize z;\n"
        run = solve_flat(parts)
        self.assertEqual(run.output, "x = 3;\ny = 1;\n----------\n==========\n")
        # What is no part of the sum may have any value.
        run = solve_flat(f"var int: w :: output_var;\n{parts}")
        self.assertNotIn("==========", run.output)
        self.assertIn("nothing bounds w", run.errors)


if __name__ == "__main__":
    unittest.main()
