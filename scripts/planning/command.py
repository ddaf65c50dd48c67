"""The command `scripts/plan`: reads the words and the files, and writes the picture."""

from __future__ import annotations

import os
import subprocess
import sys
from pathlib import Path

from planning.fit import Unfit, fit
from planning.model import read_model, read_response
from planning.page import NothingToDraw, page
from planning.textproto import TextError

USAGE = "usage: scripts/plan MODEL [RESPONSE]"
HELP = f"""{USAGE}

Draws the plan that a response holds as an SVG on standard output: bars over time for the intervals of no_overlap and
cumulative, a ring for a circuit, rectangles for no_overlap_2d. MODEL and RESPONSE are files in the text form that
cpsolve reads and writes. Without RESPONSE it asks ./cpsolve solve, or the program that the variable CPSOLVE names.

First it tests the response against the model. What it doesn't test it says on standard error and in a comment of the
picture. It ends with 1, and writes one line to standard error, where the response doesn't fit or there is nothing to
draw, and with 2 where the words are wrong.
"""
PROGRAM = Path(__file__).resolve().parents[2] / "cpsolve"


class Refused(Exception):
    """Why there is no picture, in one line."""


def main(words: list[str]) -> int:
    """Runs the command with these words, and gives its exit status."""
    if words in (["-h"], ["--help"]):
        print(HELP, end="")
        return 0
    if not 1 <= len(words) <= 2 or any(word.startswith("-") for word in words):
        print(USAGE, file=sys.stderr)
        return 2
    try:
        drawn = picture(words[0], words[1] if len(words) == 2 else None)
        sys.stdout.write(drawn)
        sys.stdout.flush()
    except Refused as refused:
        print(f"scripts/plan: {refused}", file=sys.stderr)
        return 1
    except KeyboardInterrupt:
        return 130
    except OSError as error:
        # What is still to be written goes nowhere, so that the interpreter doesn't try it again at its end.
        os.dup2(os.open(os.devnull, os.O_WRONLY), sys.stdout.fileno())
        print(f"scripts/plan: cannot write: {error.strerror}", file=sys.stderr)
        return 1
    return 0


def picture(model_file: str, response_file: str | None) -> str:
    """The SVG of the plan that the response to a model holds. Raises `Refused`."""
    text = content(model_file)
    try:
        model = read_model(text)
    except (TextError, RecursionError) as error:
        raise Refused(f"{model_file} is no model: {error}") from None
    answer = asked(text) if response_file is None else content(response_file)
    try:
        response = read_response(answer)
    except (TextError, RecursionError) as error:
        raise Refused(f"{response_file or 'the answer'} is no response: {error}") from None
    try:
        plan, skipped = fit(model, response)
        comments = [f"Not tested: {what}." for what in skipped]
        drawn = page(plan, response, Path(model_file).name, ["Drawn by scripts/plan.", *comments])
    except (Unfit, NothingToDraw) as error:
        raise Refused(str(error)) from None
    except TextError as error:
        raise Refused(f"{model_file} is no model: {error}") from None
    for line in comments:
        print(f"scripts/plan: {line[0].lower()}{line[1:-1]}", file=sys.stderr)
    return drawn


def content(file: str) -> str:
    """The text of a file. Raises `Refused`."""
    try:
        return Path(file).read_text(encoding="utf-8", errors="replace")
    except OSError as error:
        raise Refused(f"cannot read {file}: {error.strerror}") from None


def asked(model: str) -> str:
    """What the program answers to a model. Raises `Refused`."""
    program = os.environ.get("CPSOLVE") or str(PROGRAM)
    try:
        ended = subprocess.run([program, "solve"], input=model.encode(), stdout=subprocess.PIPE, check=False)
    except OSError as error:
        raise Refused(f"cannot run {program}: {error.strerror}") from None
    answer = ended.stdout.decode(errors="replace")
    if ended.returncode:
        last = (answer.strip().splitlines() or ["it wrote nothing"])[-1]
        raise Refused(f"{program} ended with status {ended.returncode}: {last}")
    return answer
