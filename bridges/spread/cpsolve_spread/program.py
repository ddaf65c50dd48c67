"""The program on the coordinator's side: it reads the model, and its checker judges answers."""

from __future__ import annotations

import asyncio
import os
from asyncio.subprocess import PIPE
from pathlib import Path

from cpsolve_spread.machine import WITH_PARENT, find_program
from cpsolve_spread.model import Model, read_model
from cpsolve_spread.response import Answer, Status, closed_response

BUILT = Path(__file__).resolve().parents[3] / "crates" / "cpsolve" / "out" / "cpsolve"
# Of a model whose variables are fixed: no sum of the objective is less than the only one.
LOG_OF_POINT = b"o\nl\n%end\n"


class ProgramFailed(Exception):
    """The program did not do its work; why, in one line."""


class InvalidModel(Exception):
    """The model is not valid: the two lines that the program writes about it."""


class Program:
    """The program, of which as many runs go on at once as there are processors."""

    def __init__(self) -> None:
        found = find_program() or (None if "CPSOLVE" in os.environ else find_program(str(BUILT)))
        if not found:
            raise ProgramFailed("there is no cpsolve on the PATH, none that CPSOLVE names, and none that is built here")
        self.path = found
        self.processors = asyncio.Semaphore(len(os.sched_getaffinity(0)))

    async def run(self, command: str, text: bytes) -> tuple[int, bytes]:
        """The exit status of a command that reads this text, and what it wrote."""
        async with self.processors:
            process = await asyncio.create_subprocess_exec(*WITH_PARENT, self.path, command, stdin=PIPE, stdout=PIPE)
            try:
                output, _ = await process.communicate(text)
            finally:
                if process.returncode is None:
                    process.kill()
        return process.returncode, output

    async def read(self, text: bytes) -> tuple[Model, str]:
        """The model of a text, and its canonical text. Raises `InvalidModel`, `Refused` and `ProgramFailed`."""
        for command in ("validate", "print"):
            status, output = await self.run(command, text)
            if status == 1:
                raise InvalidModel(output.decode())
            if status:
                raise ProgramFailed(f"cpsolve {command} ended with status {status}")
        canonical = output.decode()
        return read_model(canonical), canonical

    async def verifies(self, text: bytes, response: bytes, log: bytes) -> bool:
        """Whether the checker says of a model's text, a response and a log that the response is verified."""
        status, output = await self.run("check", b"%b%%response\n%b%%log\n%b" % (text, response, log))
        return (status, output) == (0, b"verified\n")

    async def verifies_answer(self, model: Model, text: bytes, answer: Answer) -> bool:
        """Whether what a machine says of the cube of this text is verified by its log."""
        response = closed_response(answer.status, model, answer.values)
        return await self.verifies(text, response, answer.log or b"")

    async def verifies_solution(self, model: Model, values: list[int]) -> bool:
        """Whether these values, which lie in their domains, are a solution: the best one where there is no other."""
        response = closed_response(Status.OPTIMAL, model, values)
        return await self.verifies(model.fixed(values), response, LOG_OF_POINT)
