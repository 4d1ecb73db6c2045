"""Statements that tell kinds, nullability, defaults and keys by the rows that they leave, on both databases."""
from __future__ import annotations

from dataclasses import replace
from typing import NamedTuple, Optional

from .catalogue import rows_of, rows_query
from .questions import Questions, row_conditions
from .schema import Kind, Moment, Row, Schema, Table, Value, View, decimal, equals, insert, literal, quoted
from .servers import Query, Refused, Server

LONGEST = 10000  # characters of a varchar
SAMPLES = {
    "int": [11, 12, 13], "bigint": [11, 12, 13], "boolean": [True, False, None], "varchar": ["a", "b", "c"],
    "text": ["a", "b", "c"], "timestamp": [Moment(f"2026-01-01 00:00:00.00{n}") for n in range(3)],
}


class Move(NamedTuple):
    """A statement, and the tables and views whose rows are looked at after it."""

    sql: str
    shown: list[Table | View]


def sample(kind: Kind, number: int) -> Value:
    """One of three values of a kind; equal kinds have equal ones, so that a foreign key finds its parents."""
    return decimal(number, kind.sizes[1]) if kind.word == "decimal" else SAMPLES[kind.word][number]


def row(table: Table, number: int, other: Optional[Row] = None) -> Row:
    """One of three rows, with other values in some columns."""
    return {column.name: sample(column.kind, number) for column in table.columns} | (other or {})


def edges(kind: Kind) -> list[Value]:
    """Values at the edges of a kind, some just within and some just without, and one of no kind but a text's."""
    if kind.word in ("int", "bigint"):
        edge = 2 ** (31 if kind.word == "int" else 63)
        return [-edge - 1, -edge, edge - 1, edge, "x"]
    if kind.word == "boolean":
        return [True, False, "x"]
    if kind.word == "decimal":
        digits, places = kind.sizes
        most = 10**digits - 1
        return [decimal(most, places), decimal(-most, places), 10 ** (digits - places), "x"]
    if kind.word == "timestamp":
        return [Moment("9999-12-31 23:59:59.999"), Moment("1000-01-01 00:00:00.001"), "x"]
    most = kind.sizes[0] if kind.sizes else LONGEST + 1
    return ["", "ß" * most] + (["ß" * (most + 1)] if kind.sizes else [])


class Rehearsal:
    """The moves for a schema, each table by itself: it is empty, and the tables that it needs have two rows."""

    def __init__(self, profile: str, schema: Schema):
        self.profile = profile
        self.schema = schema
        self.moves: list[Move] = []
        for table in schema.parents_first():
            self.try_columns(table)
            self.try_twins(table)
            self.try_parents(table)
        self.try_views()

    def do(self, sql: str, *shown: Table | View) -> None:
        """Adds a move."""
        self.moves.append(Move(sql, list(shown)))

    def insert(self, table: Table, values: Row, *shown: Table | View) -> None:
        """Adds an INSERT."""
        self.do(insert(self.profile, table.name, values), *shown)

    def clear(self, *tables: Table) -> None:
        """Deletes all rows of tables, of all where none is named, children first."""
        for table in tables or reversed(self.schema.parents_first()):
            self.do(f"DELETE FROM {quoted(self.profile, table.name)}")

    def prepare(self, table: Table) -> None:
        """Two rows in all tables that the table needs, and no others."""
        self.clear()
        for it in self.schema.ancestors(table):
            alone = self.without_parents(it)
            self.insert(it, row(it, 0, alone))
            self.insert(it, row(it, 1, alone))

    def without_parents(self, table: Table, but: tuple[str, ...] = ()) -> Row:
        """Nulls for the columns of foreign keys that may be null, but for some and for those that others aim at."""
        aimed = {name for it in self.schema.tables.values() for key in it.foreign if key.parent == table.name
                 for name in key.targets}
        names = {name for key in table.foreign for name in key.columns} - aimed - set(but)
        return {column.name: None for column in table.columns if column.name in names and column.nullable}

    def try_row(self, table: Table, values: Row) -> None:
        """A row in the empty table; looked at, and gone again."""
        self.insert(table, values, table)
        self.clear(table)

    def try_columns(self, table: Table) -> None:
        """Each column left out, null, and at its kind's edges; a row without columns' names tells their order."""
        self.prepare(table)
        whole = row(table, 0)
        for column in sorted(table.columns, key=lambda it: not it.numbered):
            self.try_row(table, {name: value for name, value in whole.items() if name != column.name} or whole)
            if not column.numbered:
                self.try_row(table, {**whole, column.name: None})
                for value in edges(column.kind):
                    self.try_row(table, {**whole, column.name: value})
        values = ", ".join(literal(self.profile, value) for value in whole.values())
        self.do(f"INSERT INTO {quoted(self.profile, table.name)} VALUES ({values})", table)

    def try_twins(self, table: Table) -> None:
        """For each key and index a second row that is equal there, or equal but for one column, or two nulls."""
        for part in [*table.keys(), *table.indexes]:
            same = {name: sample(table.column(name).kind, 0) for name in part.columns}
            others = [same] + [{key: value for key, value in same.items() if key != name} for name in same]
            first = table.column(part.columns[0])
            for other in others + ([{**same, first.name: None}] if first.nullable else []):
                self.clear(table)
                self.insert(table, row(table, 0, {key: value for key, value in other.items() if value is None}))
                self.insert(table, row(table, 1, other), table)

    def try_parents(self, table: Table) -> None:
        """For each foreign key a row without a parent, and a parent that is deleted."""
        for key in table.foreign:
            self.prepare(table)
            parent = self.schema.tables[key.parent]
            orphan = {name: sample(table.column(name).kind, 2) for name in key.columns}
            self.try_row(table, row(table, 0, orphan))
            self.insert(table, row(table, 0, self.without_parents(table, key.columns)))
            aim = {name: sample(parent.column(name).kind, 0) for name in key.targets}
            self.do(f"DELETE FROM {quoted(self.profile, parent.name)} WHERE {equals(self.profile, aim)}", parent, table)

    def try_views(self) -> None:
        """Two rows in each table, and what the views make of them."""
        self.clear()
        for table in self.schema.parents_first():
            self.insert(table, row(table, 0), table)
            self.insert(table, row(table, 1), table, *self.schema.views.values())

    def on_server(self, server: Server) -> list[list[list[Row]]]:
        """The rows that the moves leave on the server, for each move and each of what it shows; all is undone."""
        parts: list = ["START TRANSACTION"]
        for move in self.moves:
            parts += [move.sql, *(rows_query(self.profile, of) for of in move.shown)]
        answers = iter(server.ask([*parts, "ROLLBACK", Query(["'end'"], "")], lenient=True))
        left = [[rows_of(of, next(answers)) for of in move.shown] for move in self.moves]
        if next(answers) != [["end"]]:
            raise Refused("the server went away")
        return left

    def ask(self, questions: Questions, server: Server) -> None:
        """Asks our engine for the same rows after the same moves."""
        for move, left in zip(self.moves, self.on_server(server)):
            questions.does(move.sql, {"sql": {"sql": move.sql}}, None)
            for of, rows in zip(move.shown, left):
                text = f"{len(rows)} rows of {of.name} after {shortened(move.sql)}"
                questions.holds(text, row_conditions(self.profile, replace(of, rows=rows)))


def shortened(sql: str) -> str:
    """A statement, without the middle of a long text."""
    return sql if len(sql) < 130 else f"{sql[:90]} .. {sql[-30:]}"
