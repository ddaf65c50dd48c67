"""The exceptions of a call: one for each exit status of the program, and one for each cause of an
invalid model.

`docs/USAGE.md` lists the exit statuses and the causes, `docs/MODELS.md` the faults and the rules.
"""

import re
from typing import NamedTuple


class CpSolveError(Exception):
    """The program gave no answer."""


class ProgramNotFoundError(CpSolveError):
    """There is no program to run."""


class ProgramFailedError(CpSolveError):
    """The program was ended by a signal, or its exit status or what it wrote is not cpsolve's."""

    def __init__(self, status: int) -> None:
        """`status` is the exit status, or -N where signal N ended the program."""
        self.status = status
        how = f"with status {status}" if status >= 0 else f"by signal {-status}"
        super().__init__(f"the program ended {how} and without an answer of cpsolve")


class InvalidModelError(CpSolveError):
    """Exit status 1: the input is no valid model. There is a subclass for each cause."""


class TextFaultError(InvalidModelError):
    """The text of the model stops being one.

    Of a text that protobuf printed the cause is a field that the library does not know by name: the
    message was read from a file of a library that has more fields.
    """

    def __init__(self, byte: int, excerpt: str) -> None:
        """`byte` is the offset of the fault in the text, `excerpt` where that is (`excerpt_at`)."""
        self.byte = byte
        self.excerpt = excerpt
        super().__init__(f"text fault at byte {byte}: {excerpt}")


class FieldFaultError(InvalidModelError):
    """A field of the model is refused."""

    def __init__(self, name: str, byte: int, excerpt: str) -> None:
        """`name` is the cause, such as `Unsupported`, `byte` the offset of the field in the text,
        and `excerpt` where that is (`excerpt_at`)."""
        self.name = name
        self.byte = byte
        self.excerpt = excerpt
        super().__init__(f"field fault {name} at byte {byte}: {excerpt}")


class Place(NamedTuple):
    """A part of a model: `Place("constraint", 3)`, or with no number `Place("objective", None)`."""

    part: str
    number: int | None

    def __str__(self) -> str:
        return self.part if self.number is None else f"{self.part} {self.number}"


class BrokenRuleError(InvalidModelError):
    """The model breaks a rule of valid models."""

    def __init__(self, rule: int, place: Place) -> None:
        """`rule` is the number N of the first broken rule VN, and `place` is where it is broken."""
        self.rule = rule
        self.place = place
        super().__init__(f"invalid V{rule} at {place}")


class InputTooLongError(InvalidModelError):
    """The text of the model has more bytes than the program reads."""

    def __init__(self, most: int) -> None:
        """`most` is the greatest number of bytes that a text may have."""
        self.most = most
        super().__init__(f"input longer than {most} bytes")


class UsageError(CpSolveError):
    """Exit status 2: an option is outside its range."""


class ReadError(CpSolveError):
    """Exit status 3: the program could not read its input."""


class WriteError(CpSolveError):
    """Exit status 4: the program could not write its answer."""


class OutOfMemoryError(CpSolveError):
    """Exit status 5: the program ran out of memory."""


TEXT_FAULT = re.compile(r"# text fault at byte (\d+)")
FIELD_FAULT = re.compile(r"# field fault (\w+) at byte (\d+)")
BROKEN_RULE = re.compile(r"# invalid V(\d+) at (\w+)(?: (\d+))?")
TOO_LONG = re.compile(r"# input longer than (\d+) bytes")


def error_of(status: int, words: list[str], text: str, written: str) -> CpSolveError:
    """The exception of an exit status other than 0, of a run with the arguments `words` and the
    input `text` that wrote `written`."""
    match status:
        case 1:
            return _invalid_model(text, written) or ProgramFailedError(status)
        case 2:
            return UsageError(f"the program refuses its arguments: {' '.join(words)}")
        case 3:
            return ReadError("the program could not read its input")
        case 4:
            return WriteError("the program could not write its answer")
        case 5:
            return OutOfMemoryError("the program ran out of memory")
        case _:
            return ProgramFailedError(status)


def _invalid_model(text: str, written: str) -> InvalidModelError | None:
    """The exception of the cause that was written, or None where none was."""
    if found := TEXT_FAULT.search(written):
        byte = int(found[1])
        return TextFaultError(byte, excerpt_at(text, byte))
    if found := FIELD_FAULT.search(written):
        byte = int(found[2])
        return FieldFaultError(found[1], byte, excerpt_at(text, byte))
    if found := BROKEN_RULE.search(written):
        number = int(found[3]) if found[3] else None
        return BrokenRuleError(int(found[1]), Place(found[2], number))
    if found := TOO_LONG.search(written):
        return InputTooLongError(int(found[1]))
    return None


def excerpt_at(text: str, byte: int) -> str:
    """The line around a byte of a model that protobuf printed, after the field of the model that it
    is a part of: `constraints[3]: routes {`. It is empty where the text begins with no field."""
    encoded = text.encode()
    line_end = encoded.find(b"\n", byte)
    lines = encoded[: line_end if line_end >= 0 else None].decode().split("\n")
    fields = [line.split()[0].rstrip(":") for line in lines if line[:1].strip(" }")]
    if not fields:
        return ""
    return f"{fields[-1]}[{fields.count(fields[-1]) - 1}]: {lines[-1].strip()}"
