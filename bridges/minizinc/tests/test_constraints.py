"""Each constraint on drawn arguments: all solutions are those of trying every assignment by its definition."""

import contextlib
import io
import itertools
import random
import re
import unittest

from fzn_cpsolve import flatzinc
from fzn_cpsolve.lifetime import Caller
from fzn_cpsolve.session import Options, Session
from fzn_cpsolve.solver import Solver, find_program
from fzn_cpsolve.translation import Translation

from .definitions import CASES
from .drawing import Draw, argument_text, argument_value

# How many models are drawn for each constraint, and how many further constraints stand beside it in each.
DRAWS = (0, 1)
VALUE = re.compile(r"^x(\d+) = (\S+);$", re.MULTILINE)
TRUTHS = {"true": 1, "false": 0}


class Model:
    """A model that is drawn: a constraint and others beside it, over common variables."""

    def __init__(self, name: str, seed: str, others: int) -> None:
        rng = random.Random(seed)
        while True:
            self.draw = Draw(rng)
            names = [name, *rng.choices(list(CASES), k=others)]
            self.stated = [(other, CASES[other].draw(self.draw)) for other in names]
            for other, arguments in self.stated:
                if CASES[other].reified:
                    arguments.append(self.draw.boolean())
            if self.draw.is_small():
                return

    def text(self) -> str:
        """The model in FlatZinc."""
        lines = self.draw.declarations()
        for name, arguments in self.stated:
            lines.append(f"constraint {name}({', '.join(map(argument_text, arguments))});")
        return "\n".join([*lines, "solve satisfy;", ""])

    def holds(self, assignment: tuple[int, ...]) -> bool:
        """Whether an assignment satisfies all constraints by their definitions."""
        for name, arguments in self.stated:
            values = [argument_value(argument, assignment) for argument in arguments]
            case = CASES[name]
            condition = values.pop() if case.reified else 1
            truth = bool(case.means(*values))
            if case.reified == "_reif" and truth != bool(condition) or condition and not truth:
                return False
        return True

    def solutions(self) -> list[tuple[int, ...]]:
        """All assignments that satisfy the model."""
        return [assignment for assignment in itertools.product(*self.draw.domains) if self.holds(assignment)]


def written_solutions(output: str) -> list[tuple[int, ...]]:
    """The solutions that were written."""
    found = []
    for part in output.split("----------\n")[:-1]:
        values = {int(number): TRUTHS[text] if text in TRUTHS else int(text) for number, text in VALUE.findall(part)}
        found.append(tuple(values[number] for number in sorted(values)))
    return found


class Constraints(unittest.TestCase):
    """All solutions of drawn models."""

    def answer(self, text: str) -> str:
        """What is written of all solutions."""
        solver = Solver(find_program(""), ["--workers", "1"], Caller())
        output = io.StringIO()
        with contextlib.redirect_stdout(output):
            Session(Translation(flatzinc.read(text)), solver, Options(count=0)).run()
        return output.getvalue()

    def test_all_solutions(self) -> None:
        """The solutions written are those by the definitions, each once, and nothing else is claimed."""
        for name in CASES:
            for number, others in enumerate(DRAWS):
                model = Model(name, f"{name} {number}", others)
                with self.subTest(constraint=name, model=model.text()):
                    output = self.answer(model.text())
                    wanted = model.solutions()
                    self.assertEqual(sorted(written_solutions(output)), wanted)
                    closing = "==========\n" if wanted else "=====UNSATISFIABLE=====\n"
                    self.assertTrue(output.endswith(closing), output)


if __name__ == "__main__":
    unittest.main()
