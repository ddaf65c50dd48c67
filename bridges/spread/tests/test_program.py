"""The program itself: how its texts are read, and whether what it answers with its logs is what it answers alone.

These are skipped without a program (in CPSOLVE, on the PATH or built), and those of logs where it writes none.
"""

import asyncio
import random
import re
import subprocess
import unittest
from pathlib import Path

from cpsolve_spread.cluster import open_cluster
from cpsolve_spread.cubes import cut
from cpsolve_spread.known import Known
from cpsolve_spread.model import Refused
from cpsolve_spread.program import Program, ProgramFailed
from cpsolve_spread.search import Search, Settings
from models import drawn_model, without_solution

EXAMPLES = sorted((Path(__file__).resolve().parents[3] / "examples").glob("*.txt"))
DRAWN = 200


def run(*words, text=b""):
    """What the program writes, and its exit status."""
    ended = subprocess.run([Program().path, *words], input=text, stdout=subprocess.PIPE)
    return ended.stdout, ended.returncode


def setUpModule():
    try:
        Program()
    except ProgramFailed as failed:
        raise unittest.SkipTest(str(failed)) from None


def writes_logs():
    """Whether the program knows `--log`."""
    try:
        return run("solve", "--workers", "1", "--log")[1] == 0
    except ProgramFailed:
        return False


async def read(text):
    return await Program().read(text)


async def spread(texts, cubes):
    """What is known of each of these models after a search with four cubes at once, all of it checked."""
    program, known = Program(), []
    async with open_cluster(None, 4, {}, program.path) as cluster:
        for text in texts:
            model, _ = await program.read(text)
            known.append(Known(model, cut(model, cubes), None))
            await Search(known[-1], cluster, program, Settings()).run()
    return known


class Texts(unittest.TestCase):
    def examples(self):
        """The text, the model and the canonical text of each example that has no assumptions."""
        for file in EXAMPLES:
            text = file.read_bytes()
            try:
                yield file.name, text, *asyncio.run(read(text))
            except Refused:
                self.assertEqual(file.name, "wishes.txt")

    def test_whole_model_is_printed_as_before(self):
        for name, _, model, canonical in self.examples():
            self.assertEqual(run("print", text=model.cube((), None))[0].decode(), canonical, name)

    def test_cubes_are_valid_models(self):
        for name, _, model, _ in self.examples():
            for cuts in cut(model, 8):
                self.assertEqual(run("validate", text=model.cube(cuts, 3)), (b"valid\n", 0), name)

    def test_solutions_are_judged(self):
        rng = random.Random(1)
        for name, text, model, _ in self.examples():
            written = run("solve", "--interleave", text=text)[0].decode()
            if values := [int(value) for value in re.findall(r"^solution: (.*)", written, re.M)]:
                self.assertTrue(asyncio.run(judged(model, values)), name)
                # Of random values few are a solution, and one that is keeps all constraints.
                others = [rng.choice([v for ends in domain for v in ends]) for domain in model.domains]
                if asyncio.run(judged(model, others)) and model.objective:
                    self.assertGreaterEqual(model.objective.total(others), model.objective.total(values), name)


async def judged(model, values):
    return await Program().verifies_solution(model, values)


@unittest.skipUnless(writes_logs(), "the program writes no logs")
class Logs(unittest.TestCase):
    def test_drawn_models(self):
        """As the program alone answers, and every cube is verified."""
        rng = random.Random(2)
        texts = [drawn_model(rng).encode() for _ in range(DRAWN)]
        for text, known in zip(texts, asyncio.run(spread(texts, 8))):
            alone = run("solve", "--workers", "1", text=text)[0].decode()
            self.assertEqual(without_solution(known.response()), without_solution(alone), text.decode())
            self.assertEqual(known.closed.keys() - {None}, set(), text.decode())

    def test_examples(self):
        files = [file for file in EXAMPLES if file.name != "wishes.txt"]
        texts = [file.read_bytes() for file in files]
        for file, text, known in zip(files, texts, asyncio.run(spread(texts, 4))):
            alone = run("solve", text=text)[0].decode()
            self.assertEqual(without_solution(known.response()), without_solution(alone), file.name)


if __name__ == "__main__":
    unittest.main()
