"""The constraints of FlatZinc, one file for each family, by their names in `registry`."""

from . import arithmetic, booleans, comparisons, counting, elements, permutations, scheduling, tables
from .registry import post

__all__ = [
    "arithmetic",
    "booleans",
    "comparisons",
    "counting",
    "elements",
    "permutations",
    "post",
    "scheduling",
    "tables",
]
