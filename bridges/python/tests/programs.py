"""Programs that stand in for cpsolve, and a model that takes it long."""

import contextlib
import os
import tempfile
from pathlib import Path
from unittest import mock

from cpsolve.cp_model_pb2 import CpModelProto


@contextlib.contextmanager
def stand_in(script):
    """Lets the variable CPSOLVE name a program that reads its input and runs a shell script."""
    with tempfile.TemporaryDirectory() as folder:
        program = Path(folder, "stand-in")
        program.write_text(f"#!/bin/sh\ncat >/dev/null\n{script}\n")
        program.chmod(0o755)
        with mock.patch.dict(os.environ, CPSOLVE=str(program)):
            yield


def pigeons(count):
    """`count` pigeons in one hole fewer, as clauses: infeasible, and long to refute."""
    model = CpModelProto()
    holes = count - 1
    for _ in range(count * holes):
        model.variables.add(domain=[0, 1])
    for pigeon in range(count):
        model.constraints.add(bool_or={"literals": range(pigeon * holes, (pigeon + 1) * holes)})
    for hole in range(holes):
        for second in range(count):
            for first in range(second):
                literals = [-1 - (first * holes + hole), -1 - (second * holes + hole)]
                model.constraints.add(bool_or={"literals": literals})
    return model
