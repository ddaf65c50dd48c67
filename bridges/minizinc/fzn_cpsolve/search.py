"""Search annotations: strategies, and values to begin with."""

from collections.abc import Iterator
from typing import NamedTuple

from .cpmodel import Affine, expressions, numbers_text
from .flatzinc import Call, Value
from .references import References

# How the variable of a decision is chosen. Those that CpModel has not are said by the nearest one.
VARIABLE_CHOICES = {
    "input_order": "CHOOSE_FIRST",
    "occurrence": "CHOOSE_FIRST",
    "max_regret": "CHOOSE_FIRST",
    "smallest": "CHOOSE_LOWEST_MIN",
    "largest": "CHOOSE_HIGHEST_MAX",
    "first_fail": "CHOOSE_MIN_DOMAIN_SIZE",
    "most_constrained": "CHOOSE_MIN_DOMAIN_SIZE",
    "dom_w_deg": "CHOOSE_MIN_DOMAIN_SIZE",
    "anti_first_fail": "CHOOSE_MAX_DOMAIN_SIZE",
}
# How its value is chosen.
VALUE_CHOICES = {
    "indomain": "SELECT_MIN_VALUE",
    "indomain_min": "SELECT_MIN_VALUE",
    "outdomain_max": "SELECT_MIN_VALUE",
    "indomain_max": "SELECT_MAX_VALUE",
    "outdomain_min": "SELECT_MAX_VALUE",
    "indomain_split": "SELECT_LOWER_HALF",
    "indomain_interval": "SELECT_LOWER_HALF",
    "indomain_reverse_split": "SELECT_UPPER_HALF",
    "indomain_median": "SELECT_MEDIAN_VALUE",
    "indomain_middle": "SELECT_MEDIAN_VALUE",
    "indomain_random": "SELECT_MEDIAN_VALUE",
}


class Strategy(NamedTuple):
    """Expressions to decide, and how."""

    parts: list[Affine]
    variable_choice: str
    value_choice: str

    def text(self) -> str:
        """The strategy as a field of the model."""
        how = f"variable_selection_strategy: {self.variable_choice} domain_reduction_strategy: {self.value_choice}"
        return f"search_strategy {{ {expressions('exprs', self.parts)} {how} }}\n"


def word(value: Value) -> str:
    """The name of an annotation, without its arguments."""
    return value.name if isinstance(value, Call) else str(value)


def calls_of(annotations: list[Value]) -> Iterator[Call]:
    """The annotations that are calls, those within sequences too."""
    for note in annotations:
        if isinstance(note, Call):
            if note.name in ("seq_search", "warm_start_array"):
                yield from calls_of(note.arguments[0])
            else:
                yield note


def strategies_of(annotations: list[Value], references: References) -> list[Strategy]:
    """The strategies of `int_search` and `bool_search`, in their order."""
    found = []
    for note in calls_of(annotations):
        if note.name in ("int_search", "bool_search") and len(note.arguments) >= 3:
            parts = [part for part in references.affines(note.arguments[0]) if part.variable is not None]
            variable_choice = VARIABLE_CHOICES.get(word(note.arguments[1]), "CHOOSE_FIRST")
            value_choice = VALUE_CHOICES.get(word(note.arguments[2]), "SELECT_MIN_VALUE")
            if parts:
                found.append(Strategy(parts, variable_choice, value_choice))
    return found


def hint_of(annotations: list[Value], references: References) -> dict[int, int]:
    """The values of `warm_start`, by variable."""
    found: dict[int, int] = {}
    for note in calls_of(annotations):
        if note.name.startswith("warm_start") and len(note.arguments) == 2:
            values = references.array(note.arguments[1])
            for (scale, variable, offset), value in zip(references.affines(note.arguments[0]), values):
                if variable is not None and isinstance(value, int):
                    found.setdefault(variable, (value - offset) // scale)
    return found


def hint_text(values: dict[int, int]) -> str:
    """A hint as a field of the model."""
    if not values:
        return ""
    return f"solution_hint {{ vars: {numbers_text(values)} values: {numbers_text(values.values())} }}\n"
