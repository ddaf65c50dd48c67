"""A file of what is closed, so that a coordinator that was killed goes on where it was.

A line is one object of JSON. The first names the model and its number of cubes; each other one is a solution that was
found, or the cuts of a closed cube with the machine by whose word it is closed, if by any. A solution stands before the
cubes that are closed since nothing in them is better.
"""

from __future__ import annotations

import fcntl
import hashlib
import json
import os
from pathlib import Path

from cpsolve_spread.model import Cut, Cuts, Refused


class Journal:
    """An open journal of one model, and what it had when it was opened. Only one process has it open."""

    def __init__(self, name: str, canonical: str) -> None:
        """Opens or makes the file. Raises `Refused` where it is another process's or another model's."""
        self.model = hashlib.sha256(canonical.encode()).hexdigest()
        self.cubes: int | None = None
        self.solution: list[int] | None = None
        self.closed: dict[Cuts, str | None] = {}
        try:
            self.file = Path(name).open("a+b")
        except OSError as error:
            raise Refused(f"the journal {name}: {error.strerror}") from None
        try:
            fcntl.flock(self.file, fcntl.LOCK_EX | fcntl.LOCK_NB)
            self.read()
        except BlockingIOError:
            self.file.close()
            raise Refused(f"the journal {name} is another process's") from None
        except (ValueError, KeyError, TypeError):
            self.file.close()
            raise Refused(f"{name} is no journal of this model") from None

    def read(self) -> None:
        """Reads what is kept, and cuts off a last line that was not written whole."""
        self.file.seek(0)
        text = self.file.read()
        begins = json.dumps({"model": self.model}).encode().rstrip(b"}")
        if not begins.startswith(text[: len(begins)]):
            raise ValueError
        whole = text[: text.rfind(b"\n") + 1]
        for number, entry in enumerate(map(json.loads, whole.splitlines())):
            if number == 0:
                self.cubes = int(entry["cubes"])
            elif "solution" in entry:
                self.solution = [int(value) for value in entry["solution"]]
            else:
                self.closed[tuple(Cut(*ends) for ends in entry["closed"])] = entry["by"]
        self.file.truncate(len(whole))

    def begin(self, cubes: int) -> None:
        """Names the model and its number of cubes, where the journal is new."""
        if self.cubes is None:
            self.write(model=self.model, cubes=cubes)

    def write(self, **entry: object) -> None:
        """Adds a line, which is on the disk when this returns."""
        self.file.write(json.dumps(entry).encode() + b"\n")
        self.file.flush()
        os.fsync(self.file.fileno())
