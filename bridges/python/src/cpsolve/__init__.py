"""Solves models of CP-SAT's `CpModelProto` with the program cpsolve.

    response = cpsolve.solve(model, workers=8, conflicts=100_000)

The proof of the program speaks of the CpModel that it is handed, which is the text that protobuf
prints of the message. That this text says what the message says, and that the response is what the
program wrote, is trusted of protobuf and of this package, and tested.
"""

import importlib.util

if not importlib.util.find_spec("google") or not importlib.util.find_spec("google.protobuf"):
    raise ModuleNotFoundError("cpsolve needs protobuf: Debian's python3-protobuf or pip's protobuf")

from cpsolve.errors import (
    BrokenRuleError,
    CpSolveError,
    FieldFaultError,
    InputTooLongError,
    InvalidModelError,
    OutOfMemoryError,
    Place,
    ProgramFailedError,
    ProgramNotFoundError,
    ReadError,
    TextFaultError,
    UsageError,
    WriteError,
)
from cpsolve.program import find_program
from cpsolve.solving import canonical_text, solve, validate

__all__ = [
    "BrokenRuleError",
    "CpSolveError",
    "FieldFaultError",
    "InputTooLongError",
    "InvalidModelError",
    "OutOfMemoryError",
    "Place",
    "ProgramFailedError",
    "ProgramNotFoundError",
    "ReadError",
    "TextFaultError",
    "UsageError",
    "WriteError",
    "canonical_text",
    "find_program",
    "solve",
    "validate",
]
