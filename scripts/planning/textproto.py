"""Reads the text format of Protocol Buffers, without a schema.

A message keeps its fields in the order of the text. A list counts as its field given once for each item. A scalar is
kept as the text it was written in, and turned into a number or a name where it is asked for.
"""

from __future__ import annotations

import re
from collections.abc import Iterator
from fractions import Fraction

TOKEN = re.compile(
    r"""(?P<word>[A-Za-z_][A-Za-z0-9_]*)
      | (?P<number>\.?[0-9](?:[eE][+-][0-9]|[0-9A-Za-z_.])*)
      | (?P<string>"(?:[^"\\\n]|\\.)*"|'(?:[^'\\\n]|\\.)*')
      | (?P<sign>[\[\]:{}<>,;-])
      | (?P<space>(?:\s|\#[^\n]*)+)""",
    re.VERBOSE,
)
ESCAPE = re.compile(rb"\\(?:([0-7]{1,3})|[xX]([0-9A-Fa-f]{1,2})|u([0-9A-Fa-f]{4})|U([0-9A-Fa-f]{8})|(.))", re.DOTALL)
SIMPLE_ESCAPES = {b"a": b"\a", b"b": b"\b", b"f": b"\f", b"n": b"\n", b"r": b"\r", b"t": b"\t", b"v": b"\v"}
CLOSING = {"{": "}", "<": ">"}


class TextError(ValueError):
    """The text is no document of the text format, or a field has a value of another type."""


class Message:
    """Fields and their values, in order: a value is a message or the text of a scalar."""

    def __init__(self) -> None:
        self.fields: list[tuple[str, Message | str]] = []

    def values(self, name: str) -> list[Message | str]:
        """Every value of the field `name`."""
        return [value for field, value in self.fields if field == name]

    def names(self) -> list[str]:
        """The names of the fields that are given."""
        return [field for field, _ in self.fields]

    def messages(self, name: str) -> list[Message]:
        """The values of a field of messages."""
        values = self.values(name)
        if not all(isinstance(value, Message) for value in values):
            raise TextError(f"the field {name} holds messages")
        return values

    def message(self, name: str) -> Message:
        """The last value of a single message, or an empty one where it isn't given."""
        return (self.messages(name) or [Message()])[-1]

    def numbers(self, name: str) -> list[int]:
        """The values of a field of whole numbers."""
        return [whole(name, value) for value in self.values(name)]

    def number(self, name: str, default: int = 0) -> int:
        """The value of a single whole number."""
        return (self.numbers(name) or [default])[-1]

    def text(self, name: str) -> str:
        """The value of a single text, or "" where it isn't given."""
        values = self.values(name)
        if not values:
            return ""
        if isinstance(values[-1], Message) or values[-1][:1] not in ("'", '"'):
            raise TextError(f"the field {name} holds a text")
        return values[-1][1:]


def fraction(name: str, value: Message | str) -> Fraction:
    """The number that the scalar of the field `name` is written as."""
    if isinstance(value, str):
        sign, digits = (-1, value[1:]) if value.startswith("-") else (1, value)
        try:
            if digits[:2] in ("0x", "0X"):
                return Fraction(sign * int(digits, 16))
            if len(digits) > 1 and digits[0] == "0" and digits.isdigit():
                return Fraction(sign * int(digits, 8))
            digits = digits.rstrip("fF")
            if digits and abs(float(digits)) != float("inf"):
                return sign * Fraction(digits)
        except ValueError:
            pass
    raise TextError(f"the field {name} holds a number")


def whole(name: str, value: Message | str) -> int:
    """The whole number that the scalar of the field `name` is written as."""
    exact = fraction(name, value)
    if exact.denominator != 1:
        raise TextError(f"the field {name} holds a whole number")
    return exact.numerator


def read(text: str) -> Message:
    """The message that `text` is. Raises `TextError` with the line where it stops being one."""
    return Reader(text).document()


class Reader:
    """A place among the tokens of a text."""

    def __init__(self, text: str) -> None:
        self.tokens = list(tokens(text))
        self.place = 0

    def peek(self) -> str:
        """The next token, or "" at the end."""
        return self.tokens[self.place][0] if self.place < len(self.tokens) else ""

    def take(self) -> str:
        token = self.peek()
        self.place += 1
        return token

    def fail(self, wanted: str) -> TextError:
        """What to raise where `wanted` should have come next."""
        if self.place >= len(self.tokens):
            return TextError(f"the text ends where {wanted} is expected")
        token, line = self.tokens[self.place]
        return TextError(f"line {line}: {wanted} is expected before {token[:20]}")

    def document(self) -> Message:
        message = self.fields("")
        if self.place < len(self.tokens):
            raise self.fail("a field")
        return message

    def fields(self, closing: str) -> Message:
        """Fields up to `closing`, which is left."""
        message = Message()
        while self.peek() != closing:
            name = self.peek()
            if not (name[:1].isalpha() or name[:1] == "_"):
                raise self.fail("a field")
            self.take()
            has_colon = self.peek() == ":"
            if has_colon:
                self.take()
            message.fields.extend((name, value) for value in self.value_or_list(has_colon))
            if self.peek() in (",", ";"):
                self.take()
        return message

    def value_or_list(self, has_colon: bool) -> list[Message | str]:
        if self.peek() != "[":
            return [self.value(has_colon)]
        self.take()
        values = []
        while self.peek() != "]":
            values.append(self.value(has_colon))
            if self.peek() == ",":
                self.take()
            elif self.peek() != "]":
                raise self.fail("a comma")
        self.take()
        return values

    def value(self, has_colon: bool) -> Message | str:
        if self.peek() in CLOSING:
            closing = CLOSING[self.take()]
            message = self.fields(closing)
            self.take()
            return message
        if not has_colon:
            raise self.fail("a colon")
        sign = self.take() if self.peek() == "-" else ""
        if self.peek()[:1] in ('"', "'"):
            return self.joined_strings()
        if not self.peek() or not (self.peek()[0].isalnum() or self.peek()[0] in "._"):
            raise self.fail("a value")
        return sign + self.take()

    def joined_strings(self) -> str:
        """Strings that stand side by side, as one, after a quote that marks it as a text."""
        parts = b""
        while self.peek()[:1] in ('"', "'") and self.peek():
            parts += unescaped(self.take()[1:-1].encode())
        return '"' + parts.decode(errors="replace")


def tokens(text: str) -> Iterator[tuple[str, int]]:
    """Each token with the number of its line."""
    place, line = 0, 1
    while place < len(text):
        found = TOKEN.match(text, place)
        if not found:
            raise TextError(f"line {line}: no token begins with {text[place]!r}")
        if found.lastgroup != "space":
            yield found.group(), line
        line += found.group().count("\n")
        place = found.end()


def unescaped(raw: bytes) -> bytes:
    """The bytes that stand between the quotes of a string."""

    def byte_or_character(found: re.Match[bytes]) -> bytes:
        octal, hexadecimal, short, long, simple = found.groups()
        if octal:
            return bytes([int(octal, 8) & 0xFF])
        if hexadecimal:
            return bytes([int(hexadecimal, 16)])
        if short or long:
            return chr(min(int(short or long, 16), 0x10FFFF)).encode(errors="replace")
        return SIMPLE_ESCAPES.get(simple, simple)

    return ESCAPE.sub(byte_or_character, raw)
