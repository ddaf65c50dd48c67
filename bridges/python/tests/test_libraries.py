"""Models of other libraries: the response is a message of the library that defines the model. These
libraries have OR-Tools' public names, and stand in for it."""

import importlib
import shutil
import subprocess
import sys
import tempfile
import unittest
from pathlib import Path

import cpsolve
from cpsolve import cp_model_pb2
from google.protobuf import descriptor_pb2, descriptor_pool

BRIDGE = Path(__file__).resolve().parent.parent
DESCRIPTOR = BRIDGE / "src" / "cpsolve" / "cp_model.binpb"
PACKAGE = "operations_research.sat"


def file_of_package():
    """A copy of the descriptor of the package's messages."""
    return descriptor_pb2.FileDescriptorSet.FromString(DESCRIPTOR.read_bytes()).file[0]


class Library:
    """The classes that another library makes of a descriptor."""

    def __init__(self, file):
        self.pool = descriptor_pool.DescriptorPool()
        self.pool.AddSerializedFile(file.SerializeToString())

    def __getattr__(self, name):
        return cp_model_pb2.message_class(self.pool.FindMessageTypeByName(f"{PACKAGE}.{name}"))


def with_routes(file):
    """Adds a kind of constraint that the program does not serve."""
    message = file.message_type.add(name="RoutesConstraintProto")
    message.field.add(name="tails", number=1, type=5, label=3)
    constraint = next(message for message in file.message_type if message.name == "ConstraintProto")
    routes = constraint.field.add(name="routes", number=23, type=11, label=1, oneof_index=0)
    routes.type_name = f".{PACKAGE}.RoutesConstraintProto"
    return file


class Builder:
    """A model that has its message as OR-Tools' `CpModel` has it."""

    def __init__(self, proto):
        self.proto = proto

    def Proto(self):
        return self.proto


class Literal:
    """A literal that has its number as OR-Tools' variables have it."""

    def __init__(self, number):
        self.number = number

    def Index(self):
        return self.number


class OtherLibraries(unittest.TestCase):
    def setUp(self):
        self.library = Library(with_routes(file_of_package()))

    def model(self, **fields):
        return self.library.CpModelProto(variables=[{"domain": [0, 1]}] * 2, **fields)

    def test_the_response_is_of_the_library_of_the_model(self):
        model = self.model(constraints=[{"bool_and": {"literals": [0, -2]}}])
        for asked in (model, Builder(model)):
            response = cpsolve.solve(asked)
            self.assertIs(type(response), self.library.CpSolverResponse)
            self.assertEqual(list(response.solution), [1, 0])
            cpsolve.validate(asked)
            self.assertIn("bool_and", cpsolve.canonical_text(asked))

    def test_without_one_it_is_of_the_package(self):
        file = file_of_package()
        for message in [found for found in file.message_type if found.name == "CpSolverResponse"]:
            file.message_type.remove(message)
        response = cpsolve.solve(Library(file).CpModelProto())
        self.assertIs(type(response), cp_model_pb2.CpSolverResponse)

    def test_assumptions_may_be_literals_of_the_builder(self):
        response = cpsolve.solve(Builder(self.model()), assumptions=[Literal(0), Literal(-2)])
        self.assertEqual(list(response.solution), [1, 0])

    def test_a_kind_that_is_not_served_is_refused(self):
        model = self.model(constraints=[{"routes": {"tails": [1]}}])
        with self.assertRaises(cpsolve.FieldFaultError) as caught:
            cpsolve.solve(model)
        self.assertEqual(caught.exception.name, "Unsupported")
        self.assertEqual(caught.exception.excerpt, "constraints[0]: routes {")

    def test_a_kind_that_the_library_of_the_model_does_not_know_is_refused(self):
        model = self.model(constraints=[{"routes": {"tails": [1]}}])
        with self.assertRaises(cpsolve.TextFaultError) as caught:
            cpsolve.solve(cp_model_pb2.CpModelProto.FromString(model.SerializeToString()))
        self.assertEqual(caught.exception.excerpt, "constraints[0]: 23 {")


@unittest.skipUnless(shutil.which("protoc"), "protoc is not installed")
class GeneratedModules(unittest.TestCase):
    """A module that protoc generates, as OR-Tools' `cp_model_pb2` is, beside this package's
    messages, which have the same names."""

    def setUp(self):
        folder = tempfile.TemporaryDirectory()
        self.addCleanup(folder.cleanup)
        self.folder = folder.name

    def protoc(self, option):
        docs = BRIDGE.parent.parent / "docs"
        subprocess.run(["protoc", f"--proto_path={docs}", option, "cp_model.proto"], check=True)

    def test_the_response_is_of_the_module(self):
        self.protoc(f"--python_out={self.folder}")
        sys.path.insert(0, self.folder)
        self.addCleanup(sys.path.remove, self.folder)
        module = importlib.import_module("cp_model_pb2")
        response = cpsolve.solve(module.CpModelProto(variables=[{"domain": [4, 5]}]))
        self.assertIsInstance(response, module.CpSolverResponse)
        self.assertEqual(response.status, module.OPTIMAL)

    def test_the_descriptor_is_that_of_the_public_file(self):
        made = Path(self.folder, "made")
        self.protoc(f"--descriptor_set_out={made}")
        files = descriptor_pb2.FileDescriptorSet.FromString(made.read_bytes())
        self.assertEqual(files.file[0], file_of_package())


class Messages(unittest.TestCase):
    def test_statuses_have_the_numbers_of_the_public_messages(self):
        names = ["UNKNOWN", "MODEL_INVALID", "FEASIBLE", "INFEASIBLE", "OPTIMAL"]
        self.assertEqual([getattr(cp_model_pb2, name) for name in names], list(range(5)))
        self.assertEqual(cp_model_pb2.CpSolverStatus.Name(4), "OPTIMAL")

    def test_a_name_that_is_not_there_is_an_error(self):
        with self.assertRaises(AttributeError):
            cp_model_pb2.RoutesConstraintProto  # noqa: B018


if __name__ == "__main__":
    unittest.main()
