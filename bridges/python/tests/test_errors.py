"""Each exit status and each cause has its own exception, with the place that the program names."""

import os
import tempfile
import unittest
from pathlib import Path
from unittest import mock

import cpsolve
from cpsolve import cp_model_pb2, program
from programs import stand_in

ALL_CALLS = (cpsolve.solve, cpsolve.validate, cpsolve.canonical_text)


def model_of(**fields):
    return cp_model_pb2.CpModelProto(variables=[{"domain": [0, 1]}], **fields)


class InvalidModels(unittest.TestCase):
    def refused(self, error, model, *calls):
        """The exception of each call, which must be the same, and is an InvalidModelError."""
        for call in calls or (cpsolve.solve, cpsolve.validate):
            with self.assertRaises(error) as caught:
                call(model)
            self.assertIsInstance(caught.exception, cpsolve.InvalidModelError)
        return caught.exception

    def test_broken_rules_name_their_place(self):
        cases = [
            (dict(constraints=[{}, {"bool_or": {"literals": [1]}}]), 3, "constraint 1"),
            (dict(objective={"vars": [0]}), 5, "objective"),
            (dict(solution_hint={"vars": [3], "values": [1]}), 17, "hint"),
            (dict(assumptions=[0, -3]), 3, "assumption 1"),
            (dict(search_strategy=[{"exprs": [{"vars": [8], "coeffs": [1]}]}]), 3, "strategy 0"),
        ]
        for fields, rule, place in cases:
            with self.subTest(place=place):
                error = self.refused(cpsolve.BrokenRuleError, model_of(**fields))
                self.assertEqual((error.rule, str(error.place)), (rule, place))
                self.assertEqual(str(error), f"invalid V{rule} at {place}")

    def test_a_variable_is_a_place(self):
        model = model_of()
        model.variables.add(domain=[3, 2])
        error = self.refused(cpsolve.BrokenRuleError, model)
        self.assertEqual((error.rule, error.place), (1, cpsolve.Place("variable", 1)))
        self.assertIn("domain: [3, 2]", cpsolve.canonical_text(model))

    def test_a_field_is_named(self):
        model = model_of(objective={"vars": [0], "coeffs": [1], "scaling_factor": 0.5})
        error = self.refused(cpsolve.FieldFaultError, model, *ALL_CALLS)
        self.assertEqual(error.name, "NotWhole")
        self.assertEqual(error.excerpt, "objective[0]: scaling_factor: 0.5")
        self.assertEqual(str(error), f"field fault NotWhole at byte {error.byte}: {error.excerpt}")

    def test_a_field_is_found_in_its_constraint(self):
        table = {"vars": [0], "exprs": [{}], "values": [1]}
        model = model_of(constraints=[{"name": "fine } {\n"}, {"table": table}])
        error = self.refused(cpsolve.FieldFaultError, model)
        self.assertEqual(error.name, "MixedForms")
        self.assertTrue(error.excerpt.startswith("constraints[1]: "), error.excerpt)

    def test_numbers_that_are_none(self):
        for offset in (float("nan"), float("inf"), 2.0**60):
            with self.subTest(offset=offset):
                self.refused(cpsolve.FieldFaultError, model_of(objective={"offset": offset}))

    def test_a_field_that_the_library_does_not_know_is_no_text(self):
        # Field 101 of a constraint, with a message of two bytes.
        constraint = cp_model_pb2.ConstraintProto.FromString(bytes([0xAA, 0x06, 2, 8, 1]))
        model = model_of(constraints=[{}, constraint])
        error = self.refused(cpsolve.TextFaultError, model, *ALL_CALLS)
        self.assertEqual(error.excerpt, "constraints[1]: 101 {")

    def test_an_input_that_is_too_long(self):
        model = model_of(name="x" * 67_108_864)
        error = self.refused(cpsolve.InputTooLongError, model, cpsolve.validate)
        self.assertEqual(error.most, 67_108_864)


class Failures(unittest.TestCase):
    def test_options_outside_their_ranges(self):
        numbers = {"workers": [0, 17], "conflicts": [-1, 10**9 + 1], "seed": [2**64]}
        cases = {**numbers, "gap": [-1, 2**63]}
        for name, value in ((name, value) for name, values in cases.items() for value in values):
            with self.subTest(name, value=value):
                with self.assertRaises(cpsolve.UsageError) as caught:
                    cpsolve.solve(model_of(), **{name: value})
                self.assertIn(f"--{name} {value}", str(caught.exception))

    def test_options_at_the_ends_of_their_ranges(self):
        greatest = dict(workers=16, conflicts=10**9, seed=2**64 - 1, gap=2**63 - 1)
        least = dict(workers=1, conflicts=0, seed=0, gap=0, interleave=True)
        for options in (greatest, least):
            self.assertEqual(cpsolve.solve(model_of(), **options).status, cp_model_pb2.OPTIMAL)

    def test_what_is_no_number_is_no_option(self):
        with self.assertRaises(TypeError):
            cpsolve.solve(model_of(), workers="4")

    def test_what_is_no_model(self):
        for model in (None, "variables {}", cp_model_pb2.ConstraintProto()):
            with self.subTest(type(model)), self.assertRaises(TypeError):
                cpsolve.solve(model)

    def test_each_exit_status_has_its_exception(self):
        cases = {3: cpsolve.ReadError, 4: cpsolve.WriteError, 5: cpsolve.OutOfMemoryError}
        for status, error in cases.items():
            with self.subTest(status), stand_in(f"exit {status}"):
                with self.assertRaises(error) as caught:
                    cpsolve.solve(model_of())
            self.assertIs(type(caught.exception), error)

    def test_other_ends_have_one_too(self):
        cases = {"exit 1": 1, "exit 77": 77, "kill -ABRT $$": -6}
        for script, status in cases.items():
            with self.subTest(script), stand_in(script):
                with self.assertRaises(cpsolve.ProgramFailedError) as caught:
                    cpsolve.validate(model_of())
            self.assertEqual(caught.exception.status, status)

    def test_a_program_that_is_not_cpsolve_has_no_answer(self):
        for script in ("true", "echo hello", "echo 'status: FINE'", "printf 'status: \\377'"):
            for call in (cpsolve.solve, cpsolve.validate):
                with self.subTest(script, call=call), stand_in(script):
                    with self.assertRaises(cpsolve.ProgramFailedError) as caught:
                        call(model_of())
                    self.assertEqual(caught.exception.status, 0)

    def test_all_are_of_one_class(self):
        names = [name for name in cpsolve.__all__ if name.endswith("Error")]
        for name in names:
            self.assertTrue(issubclass(getattr(cpsolve, name), cpsolve.CpSolveError), name)


class Finding(unittest.TestCase):
    """Where the program is looked for."""

    def setUp(self):
        folder = tempfile.TemporaryDirectory()
        self.addCleanup(folder.cleanup)
        self.folder = Path(folder.name)
        self.empty = self.folder / "empty"
        self.empty.mkdir()

    def program_in(self, name, file="cpsolve"):
        made = self.folder / name / file
        made.parent.mkdir()
        made.write_text("#!/bin/sh\n")
        made.chmod(0o755)
        return str(made)

    def found(self, variable, path, built):
        environment = {"PATH": path, "CPSOLVE": variable}
        with mock.patch.dict(os.environ, environment), mock.patch.object(program, "BUILT", built):
            return cpsolve.find_program()

    def test_the_variable_is_first_then_the_path_then_the_checkout(self):
        named, on_path, built = (self.program_in(name) for name in ("named", "path", "built"))
        path = str(Path(on_path).parent)
        self.assertEqual(self.found(named, path, built), named)
        self.assertEqual(self.found("", path, built), on_path)
        self.assertEqual(self.found("", str(self.empty), built), built)

    def test_none_is_an_exception(self):
        with self.assertRaises(cpsolve.ProgramNotFoundError):
            self.found("", str(self.empty), str(self.empty / "cpsolve"))

    def test_a_variable_that_names_none_is_an_exception(self):
        on_path = self.program_in("path")
        with self.assertRaisesRegex(cpsolve.ProgramNotFoundError, "CPSOLVE names no program"):
            self.found(str(self.empty / "cpsolve"), str(Path(on_path).parent), on_path)


if __name__ == "__main__":
    unittest.main()
