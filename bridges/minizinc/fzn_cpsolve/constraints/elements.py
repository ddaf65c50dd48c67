"""Elements of arrays and conditional expressions."""

from ..cpmodel import Affine, constant, expression, expressions
from .registry import Posting, holds


def add_element(p: Posting, index: list[Affine], parts: list[Affine], target: Affine) -> None:
    """`target` is the one of `parts` whose place, counted from 0, is the sum of `index`."""
    if not parts:
        p.model.add_false(p.enforcement)
        return
    place = f"linear_index {expression(*index)} linear_target {expression(target)}"
    p.model.add(p.enforcement, f"element {{ {place} {expressions('exprs', parts)} }}")


@holds("array_int_element", "array_bool_element", "array_var_int_element", "array_var_bool_element")
def element(p: Posting) -> None:
    """The third is the second's member at the first, counted from 1."""
    add_element(p, [p.affine(0), constant(-1)], p.affines(1), p.affine(2))


@holds("cpsolve_element", "cpsolve_element_bool")
def element_from(p: Posting) -> None:
    """The fourth is the third's member at the first, counted from the second."""
    add_element(p, [p.affine(0), constant(-p.number(1))], p.affines(2), p.affine(3))


@holds("cpsolve_element2d", "cpsolve_element2d_bool")
def element_of_matrix(p: Posting) -> None:
    """A member of a matrix, at a row and a column that are counted from numbers of their own."""
    row, column = p.affine(0), p.affine(1)
    first_row, first_column, columns = (p.number(place) for place in (2, 3, 4))
    parts = p.affines(5)
    low, high = p.model.bounds(column)
    if parts and (low < first_column or high >= first_column + columns):
        p.model.add_linear([(1, column)], [(first_column, first_column + columns - 1)], p.enforcement)
    start = constant(-first_row * columns - first_column)
    add_element(p, [row.times(columns), column, start], parts, p.affine(6))


@holds("cpsolve_if_int", "cpsolve_if_bool")
def conditional(p: Posting) -> None:
    """The third is the second's member at the first condition that is true."""
    result = p.affine(2)
    before: list[int] = []
    for condition, part in zip(p.literals(0), p.affines(1), strict=True):
        truth = p.model.known(condition)
        if truth is False:
            continue
        own = [] if truth else [condition]
        p.model.add_linear([(1, result), (-1, part)], [(0, 0)], [*p.enforcement, *before, *own])
        if truth:
            return
        before.append(-condition - 1)
