"""Tests of a WHERE, as SQL and as what they are on a row, in three-valued logic."""
from __future__ import annotations

import operator
from random import Random
from typing import Callable, NamedTuple, Optional

from .schema import Column, Row, Table, Value, literal, quoted

OPERATORS = {"=": operator.eq, "<>": operator.ne, "!=": operator.ne, "<": operator.lt, "<=": operator.le,
             ">": operator.gt, ">=": operator.ge}
Truth = Optional[bool]


class Condition(NamedTuple):
    """A test: its SQL, its truth on a row, and the columns that it names."""

    sql: str
    on: Callable[[Row], Truth]
    names: frozenset[str]


def both(x: Truth, y: Truth) -> Truth:
    """x AND y."""
    if x is False or y is False:
        return False
    return None if x is None or y is None else True


def negated(x: Truth) -> Truth:
    """NOT x."""
    return None if x is None else not x


def null_test(profile: str, column: Column, wanted: bool) -> Condition:
    """`c IS NULL`, or `c IS NOT NULL`."""
    name = column.name
    sql = f"{quoted(profile, name)} IS {'' if wanted else 'NOT '}NULL"
    return Condition(sql, lambda row: (row[name] is None) == wanted, frozenset([name]))


def comparison(profile: str, column: Column, sign: str, other: Value | Column) -> Condition:
    """`c < v`, or `c < d`; texts are ordered by their characters, so by the bytes of UTF-8."""
    name = column.name
    is_column = isinstance(other, Column)
    right = quoted(profile, other.name) if is_column else literal(profile, other)

    def on(row: Row) -> Truth:
        x, y = row[name], row[other.name] if is_column else other
        return None if x is None or y is None else OPERATORS[sign](x, y)

    names = frozenset([name, other.name] if is_column else [name])
    return Condition(f"{quoted(profile, name)} {sign} {right}", on, names)


def simple(random: Random, profile: str, table: Table, value_for: Callable) -> Condition:
    """A test of one column, as a rule with a value that is there."""
    column = random.choice(table.columns)
    if random.random() < 0.2:
        return null_test(profile, column, random.random() < 0.5)
    sign = random.choice(list(OPERATORS))
    twins = [it for it in table.columns if it.kind == column.kind and it is not column]
    if twins and random.random() < 0.2:
        return comparison(profile, column, sign, random.choice(twins))
    there = [row[column.name] for row in table.rows if row[column.name] is not None]
    value = random.choice(there) if there and random.random() < 0.7 else value_for(column.kind)
    return comparison(profile, column, sign, value)


def made(random: Random, profile: str, table: Table, value_for: Callable, depth: int = 2) -> Condition:
    """A test of at most so many levels."""
    if depth == 0 or random.random() < 0.5:
        return simple(random, profile, table, value_for)
    x = made(random, profile, table, value_for, depth - 1)
    if random.random() < 0.3:
        return Condition(f"NOT ({x.sql})", lambda row: negated(x.on(row)), x.names)
    y = made(random, profile, table, value_for, depth - 1)
    if random.random() < 0.5:
        return Condition(f"({x.sql}) AND ({y.sql})", lambda row: both(x.on(row), y.on(row)), x.names | y.names)
    return Condition(f"({x.sql}) OR ({y.sql})", lambda row: negated(both(negated(x.on(row)), negated(y.on(row)))),
                     x.names | y.names)
