"""Reads FlatZinc: declarations, constraints and the solve item, each with its line."""

import re
from dataclasses import dataclass, field
from typing import Any, NamedTuple

from .domains import Domain, of_values
from .errors import Refused

# One item up to its semicolon, past strings and comments.
ITEM = re.compile(r"""(?:[^;"%]+|"(?:[^"\\]|\\.)*"|%[^\n]*)*;""")
COMMENT = re.compile(r"""("(?:[^"\\]|\\.)*")|%[^\n]*""")
TOKEN = re.compile(
    r"""[A-Za-z_]\w*|-?0x[0-9a-fA-F]+|-?0o[0-7]+|-?\d+(?:\.\d+)?(?:[eE][-+]?\d+)?|\.\.|::
    |"(?:[^"\\]|\\.)*"|'[^'\n]*'|\S""",
    re.VERBOSE,
)
# A value of FlatZinc: a number, a Boolean, a string, a name, a list, a set, a call or an element of an array.
Value = Any


class Name(str):
    """An identifier."""

    __slots__ = ()


class Call(NamedTuple):
    """A name with arguments, as in annotations."""

    name: str
    arguments: list[Value]


class Element(NamedTuple):
    """`array[index]`."""

    array: Name
    index: int


class IntSet(list):
    """A set of whole numbers, as a domain."""


class FloatSet(list):
    """A set of floats."""


class Constraint(NamedTuple):
    """A constraint as it stands."""

    name: str
    arguments: list[Value]
    annotations: list[Value]
    line: int


class Declaration(NamedTuple):
    """A variable: `int` or `bool`, and its domain where it has one."""

    kind: str
    domain: Domain | None
    line: int


@dataclass
class FlatModel:
    """A FlatZinc model. `equalities` are variables that are declared equal to a value: name, value, line. `outputs` are
    what is written of a solution: a name, and for an array its index sets."""

    variables: dict[str, Declaration] = field(default_factory=dict)
    equalities: list[tuple[Name, Value, int]] = field(default_factory=list)
    arrays: dict[str, list[Value]] = field(default_factory=dict)
    constants: dict[str, Value] = field(default_factory=dict)
    kinds: dict[str, str] = field(default_factory=dict)
    constraints: list[Constraint] = field(default_factory=list)
    outputs: list[tuple[Name, list[Domain] | None]] = field(default_factory=list)
    goal: str = "satisfy"
    objective: Value = None
    search: list[Value] = field(default_factory=list)


class Atoms(dict):
    """What a token of one word stands for: a number, a Boolean, a string or a name. Each is read once."""

    def __missing__(self, token: str) -> Value:
        value = self[token] = self.read(token)
        return value

    @staticmethod
    def read(token: str) -> Value:
        """What one word stands for."""
        first = token[0]
        if first.isdigit() or first == "-" and len(token) > 1:
            if token.lstrip("-")[:2] in ("0x", "0o"):
                return int(token, 0)
            return float(token) if any(mark in token for mark in ".eE") else int(token)
        if token in ("true", "false"):
            return token == "true"
        if first == '"':
            return token[1:-1]
        if first == "'":
            return Name(token[1:-1])
        if first.isalpha() or first == "_":
            return Name(token)
        raise Refused(f"{token!r} is no FlatZinc here")


OPENING = frozenset("[{(")


class ItemReader:
    """Reads the tokens of one item."""

    def __init__(self, atoms: Atoms, tokens: list[str]) -> None:
        self.atoms, self.tokens, self.next = atoms, tokens, 0

    def peek(self) -> str:
        """The next token."""
        return self.tokens[self.next]

    def take(self, wanted: str = "") -> str:
        """The next token, which must be `wanted` where that is given."""
        token = self.tokens[self.next]
        if wanted and token != wanted:
            raise Refused(f"{wanted!r} was expected, not {token!r}")
        self.next += 1
        return token

    def name(self) -> Name:
        """An identifier."""
        value = self.atoms[self.take()]
        if not isinstance(value, Name):
            raise Refused(f"a name was expected, not {value!r}")
        return value

    def values(self, closing: str) -> list[Value]:
        """Values up to the closing bracket. A list of single words, as most are, is read at once."""
        tokens, start = self.tokens, self.next
        end = tokens.index(closing, start)
        if not OPENING.isdisjoint(tokens[start:end]) or ".." in tokens[start:end]:
            return self.nested(closing)
        self.next = end + 1
        words, commas = tokens[start:end:2], tokens[start + 1 : end : 2]
        if commas.count(",") != len(commas):
            raise Refused("a comma is missing")
        atoms = self.atoms
        return [atoms[word] for word in words]

    def nested(self, closing: str) -> list[Value]:
        """Values up to the closing bracket, some with brackets or ranges of their own."""
        found = []
        while self.peek() != closing:
            found.append(self.value())
            if self.peek() != closing:
                self.take(",")
        self.take(closing)
        return found

    def value(self) -> Value:
        """A value."""
        token = self.take()
        if token == "[":
            return self.values("]")
        if token == "{":
            members = self.values("}")
            is_float = any(isinstance(member, float) for member in members)
            return FloatSet(members) if is_float else IntSet(of_values(members))
        atom, following = self.atoms[token], self.peek()
        if following == "..":
            self.take()
            return self.range_from(atom)
        if isinstance(atom, Name):
            if following == "(":
                self.take()
                return Call(atom, self.values(")"))
            if following == "[":
                self.take()
                return Element(atom, self.values("]")[0])
        return atom

    def range_from(self, low: Value) -> Value:
        """`low..high`, where `low..` is read."""
        high = self.atoms[self.take()]
        if isinstance(low, float) or isinstance(high, float):
            return FloatSet([low, high])
        return IntSet([(low, high)] if low <= high else [])

    def annotations(self) -> list[Value]:
        """`:: value :: value`"""
        found = []
        while self.peek() == "::":
            self.take()
            found.append(self.value())
        return found

    def type(self) -> tuple[bool, str, Domain | None]:
        """Whether it is a variable's, what it is of, and the domain."""
        is_variable = self.peek() == "var"
        if is_variable:
            self.take()
        word = self.peek()
        if word in ("bool", "int", "float"):
            self.take()
            return is_variable, word, None
        if word == "set":
            self.take()
            self.take("of")
            self.type()
            return is_variable, "set", None
        domain = self.value()
        if isinstance(domain, FloatSet):
            return is_variable, "float", None
        return is_variable, "int", domain


class Reader:
    """Reads a model item by item."""

    def __init__(self) -> None:
        self.model, self.line = FlatModel(), 1
        self.atoms = Atoms()

    def read(self, text: str) -> FlatModel:
        """The model of a text."""
        end = 0
        for found in ITEM.finditer(text):
            if found.start() != end:
                break
            end = found.end()
            self.item(found[0])
        rest = COMMENT.sub(r"\1", text[end:])
        body = rest.lstrip()
        if body:
            line = self.line + rest.count("\n", 0, len(rest) - len(body))
            raise Refused(f"line {line}: {body[:20]!r} ends without a semicolon")
        return self.model

    def item(self, text: str) -> None:
        """One item, with the blank before it."""
        body = text.lstrip()
        self.line += text.count("\n", 0, len(text) - len(body))
        start, self.line = self.line, self.line + body.count("\n")
        if "%" in body:
            plain = COMMENT.sub(r"\1", body)
            start += body.count("\n") - plain.lstrip().count("\n")
            body = plain
        reader = ItemReader(self.atoms, TOKEN.findall(body))
        try:
            self.read_item(reader, start)
        except Refused as refused:
            raise Refused(f"line {start}: {refused}") from None
        except (IndexError, ValueError, TypeError):
            raise Refused(f"line {start}: this is no FlatZinc") from None

    def read_item(self, reader: ItemReader, line: int) -> None:
        """One item from its tokens."""
        first = reader.peek()
        if first == "predicate":
            return
        if first == "constraint":
            self.constraint(reader, line)
        elif first == "solve":
            self.solve(reader)
        elif first == "array":
            self.array(reader, line)
        else:
            self.declaration(reader, line)
        reader.take(";")

    def constraint(self, reader: ItemReader, line: int) -> None:
        """`constraint NAME(..) :: ..`; a Boolean alone is one that is true."""
        reader.take()
        value = reader.value()
        if not isinstance(value, Call):
            value = Call("bool_eq", [value, True])
        self.model.constraints.append(Constraint(value.name, value.arguments, reader.annotations(), line))

    def solve(self, reader: ItemReader) -> None:
        """`solve :: .. satisfy`, or `minimize` or `maximize` a value."""
        reader.take()
        self.model.search = reader.annotations()
        self.model.goal = reader.take()
        if self.model.goal in ("minimize", "maximize"):
            self.model.objective = reader.value()
        elif self.model.goal != "satisfy":
            raise Refused(f"{self.model.goal!r} is no goal")

    def array(self, reader: ItemReader, line: int) -> None:
        """`array [1..N] of TYPE: NAME :: .. = [..]`"""
        reader.take()
        reader.take("[")
        index_set = reader.values("]")[0]
        reader.take("of")
        _, kind, domain = reader.type()
        reader.take(":")
        name = reader.name()
        annotations = reader.annotations()
        if reader.peek() == "=":
            reader.take()
            body = reader.value()
        else:
            # An older form: an array with variables of its own.
            body = [Name(f"{name}[{k}]") for k in range(1, (index_set[-1][1] if index_set else 0) + 1)]
            for member in body:
                self.variable(member, kind, domain, line)
        self.model.arrays[name], self.model.kinds[name] = body, kind
        for note in annotations:
            if isinstance(note, Call) and note.name == "output_array":
                self.model.outputs.append((name, note.arguments[0]))

    def declaration(self, reader: ItemReader, line: int) -> None:
        """`TYPE: NAME :: .. = VALUE`"""
        is_variable, kind, domain = reader.type()
        reader.take(":")
        name = reader.name()
        annotations = reader.annotations()
        value = None
        if reader.peek() == "=":
            reader.take()
            value = reader.value()
        self.model.kinds[name] = kind
        if not is_variable:
            self.model.constants[name] = value
            return
        self.variable(name, kind, domain, line)
        if value is not None:
            self.model.equalities.append((name, value, line))
        if Name("output_var") in annotations:
            self.model.outputs.append((name, None))

    def variable(self, name: Name, kind: str, domain: Domain | None, line: int) -> None:
        """Takes in a variable."""
        if kind not in ("int", "bool"):
            raise Refused(f"variable {name} is a {kind}, and cpsolve has whole numbers and Booleans")
        self.model.variables[name] = Declaration(kind, domain, line)


def read(text: str) -> FlatModel:
    """The model of a FlatZinc text. What is no FlatZinc, and each variable that is a float or a set, is refused."""
    return Reader().read(text)
