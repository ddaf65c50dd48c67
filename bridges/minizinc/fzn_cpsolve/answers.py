"""Writes what MiniZinc reads: solutions, closing lines and statistics."""

import sys
from collections.abc import Sequence

from .flatzinc import Value
from .translation import Translation

SOLUTION_END = "----------"
COMPLETE = "=========="
UNSATISFIABLE = "=====UNSATISFIABLE====="
UNKNOWN = "=====UNKNOWN====="
ERROR = "=====ERROR====="


def write(line: str) -> None:
    """A line on standard output, at once."""
    sys.stdout.write(f"{line}\n")
    sys.stdout.flush()


def note(line: str) -> None:
    """A line on standard error."""
    print(f"cpsolve: {line}", file=sys.stderr, flush=True)


def value_text(translation: Translation, value: Value, kind: str, values: Sequence[int]) -> str:
    """A value of FlatZinc at a solution."""
    scale, variable, offset = translation.references.affine(value)
    number = offset if variable is None else scale * values[variable] + offset
    return ("true" if number else "false") if kind == "bool" else str(number)


def solution_text(translation: Translation, values: Sequence[int]) -> str:
    """All that the FlatZinc model says is to be written of a solution."""
    lines = []
    flat = translation.flat
    for name, index_sets in flat.outputs:
        kind = flat.kinds[name]
        if index_sets is None:
            lines.append(f"{name} = {value_text(translation, name, kind, values)};")
            continue
        members = ", ".join(value_text(translation, value, kind, values) for value in flat.arrays[name])
        ranges = ", ".join(f"{found[0][0]}..{found[-1][1]}" if found else "1..0" for found in index_sets)
        lines.append(f"{name} = array{len(index_sets)}d({ranges}, [{members}]);")
    return "\n".join([*lines, SOLUTION_END])


def write_statistics(found: dict[str, object]) -> None:
    """Statistics in MiniZinc's form."""
    lines = [f"%%%mzn-stat: {name}={value}" for name, value in found.items() if value is not None]
    write("\n".join([*lines, "%%%mzn-stat-end"]))
