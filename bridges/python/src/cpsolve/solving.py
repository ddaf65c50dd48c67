"""The three calls: `solve`, `validate` and `canonical_text`."""

import operator
from collections.abc import Iterable
from typing import Any, Protocol

from google.protobuf import text_format
from google.protobuf.message import Message

from cpsolve import cp_model_pb2
from cpsolve.errors import ProgramFailedError
from cpsolve.program import run


class HasProto(Protocol):
    """A builder of models, such as OR-Tools' `CpModel`."""

    def Proto(self) -> Message:
        """The model's message."""


def solve(
    model: Message | HasProto,
    *,
    workers: int | None = None,
    conflicts: int | None = None,
    seed: int | None = None,
    interleave: bool = False,
    gap: int | None = None,
    assumptions: Iterable[Any] = (),
) -> Message:
    """Solves a model. The response is the `CpSolverResponse` of the library that defines the model.

    - `workers`: how many search, 1 to 16; the program's default is 4.
    - `conflicts`: how many conflicts each worker may learn from, 0 to 10**9; by default 10,000.
    - `interleave`: workers take turns in one thread, so that the same call has the same response.
    - `seed`: draws these turns, and is 0 to 2**64 - 1; by default 1.
    - `gap`: by how much the sum of an OPTIMAL solution, without offset and scaling factor, may
      exceed the least one, 0 to 2**63 - 1; by default 0.
    - `assumptions`: literals besides the model's own, each a number or an object with `Index()`.

    Raises a subclass of InvalidModelError where the model is not valid, UsageError where an option
    is outside its range, and another subclass of CpSolveError for every other failure.
    """
    proto = message_of(model)
    options = {"workers": workers, "conflicts": conflicts, "seed": seed, "gap": gap}
    words = ["solve"]
    for name, value in options.items():
        if value is not None:
            words += [f"--{name}", str(operator.index(value))]
    if interleave:
        words.append("--interleave")
    lines = [f"assumptions: {reference_of(literal)}\n" for literal in assumptions]
    written = run(words, text_of(proto) + "".join(lines))
    return response_of(written, response_class(proto))


def validate(model: Message | HasProto) -> None:
    """Returns where the model is valid, and otherwise raises the exception that `solve` raises."""
    if run(["validate"], text_of(message_of(model))) != "valid\n":
        raise ProgramFailedError(0)


def canonical_text(model: Message | HasProto) -> str:
    """The canonical text of a model, which is read as the same model again.

    Raises the exceptions of `solve` except BrokenRuleError, as no rule is tested.
    """
    return run(["print"], text_of(message_of(model)))


def message_of(model: Message | HasProto) -> Message:
    """The message of a model. Raises TypeError where that is no CpModelProto of protobuf."""
    proto = model.Proto() if hasattr(model, "Proto") else model
    if not isinstance(proto, Message) or proto.DESCRIPTOR.name != "CpModelProto":
        raise TypeError(f"neither a CpModelProto of protobuf nor a builder of one: {type(model)}")
    return proto


def text_of(proto: Message) -> str:
    """The text of a model, with one field in each line.

    Fields that the library does not know are printed too, by their numbers, so that the program
    refuses them. Without them it would solve another model.
    """
    return text_format.MessageToString(
        proto, use_short_repeated_primitives=True, print_unknown_fields=True
    )


def reference_of(literal: Any) -> int:
    """The number of a literal."""
    return literal.Index() if hasattr(literal, "Index") else operator.index(literal)


def response_of(written: str, response: type[Message]) -> Message:
    """The response that the program wrote. Raises ProgramFailedError where it wrote none: a program
    that is not cpsolve."""
    if not written.startswith("status: "):
        raise ProgramFailedError(0)
    try:
        return text_format.Parse(written, response())
    except text_format.ParseError as fault:
        raise ProgramFailedError(0) from fault


def response_class(proto: Message) -> type[Message]:
    """The class of the responses of the library that defines `proto`; this package's where it has
    none."""
    descriptor = proto.DESCRIPTOR.file.message_types_by_name.get("CpSolverResponse")
    if descriptor is None:
        return cp_model_pb2.CpSolverResponse
    return cp_model_pb2.message_class(descriptor)
