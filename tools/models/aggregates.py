"""The aggregates of views of groups, by their words."""
from dataclasses import dataclass
from typing import Callable

from limits import MOST_DIGITS


@dataclass(frozen=True)
class Aggregate:
    """Over which columns an aggregate is: over any, over those whose values are ordered, or over those that are summed; the type of its cells
    by that of its column; what it shows of the values of a group that aren't null; and how often random configurations draw it."""

    over: str
    type_of: Callable
    cell: Callable
    often: int = 1


def count_type(_):
    return "int64"


def same_type(type_):
    return type_


def sum_type(type_):
    return ["decimal", MOST_DIGITS, type_[2] if isinstance(type_, list) else 0]


AGGREGATES = {
    "count": Aggregate("any", count_type, len),
    "least": Aggregate("ordered", same_type, lambda held: min(held, default=None)),
    "greatest": Aggregate("ordered", same_type, lambda held: max(held, default=None)),
    "distinct": Aggregate("ordered", count_type, lambda held: len({*held}), often=4),
    "sum": Aggregate("summed", sum_type, lambda held: sum(held) if held else None, often=2),
}
