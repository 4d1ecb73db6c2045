"""The tables, views and sequences of a database, and how they are spelt in SQL of the two profiles."""
from __future__ import annotations

from dataclasses import dataclass, field
from decimal import Decimal
from typing import NamedTuple, Optional, Union

POSTGRESQL, MYSQL = "postgresql", "mysql"
PUBLIC = "public"
SCHEMAS = [PUBLIC, "north", "south", 'The "old". one']  # those of examples/schemas, and one to be quoted with care


class Moment(str):
    """A moment as its text: 2026-11-28 22:10:00.000."""


Value = Union[None, bool, int, Decimal, Moment, str]
Row = dict[str, Value]


class Name(NamedTuple):
    """The name of a table, a view or a sequence, and its schema; in MySQL that is always `public`."""

    text: str
    schema: str = PUBLIC

    def __str__(self) -> str:
        return self.text if self.schema == PUBLIC else f"{self.schema}.{self.text}"


class Kind(NamedTuple):
    """A column's type: a word of docs/SQL.md and the numbers behind it."""

    word: str
    sizes: tuple[int, ...] = ()

    def __str__(self) -> str:
        sizes = ", ".join(map(str, self.sizes))
        return f"{self.word}({sizes})" if sizes else self.word


@dataclass
class Column:
    """A column; a default of None is none."""

    name: str
    kind: Kind
    nullable: bool = True
    default: Value = None
    numbered: bool = False


class Key(NamedTuple):
    """A primary key, or a unique constraint, with its columns in order."""

    name: str
    columns: tuple[str, ...]


class Index(NamedTuple):
    """An index with its columns in order."""

    name: str
    columns: tuple[str, ...]
    unique: bool = False


class ForeignKey(NamedTuple):
    """A foreign key: its columns, and those of another table that they aim at."""

    name: str
    columns: tuple[str, ...]
    parent: Name
    targets: tuple[str, ...]
    cascade: bool = False


@dataclass
class Table:
    """A table with what belongs to it, and its rows."""

    name: Name
    columns: list[Column] = field(default_factory=list)
    primary: Optional[Key] = None
    uniques: list[Key] = field(default_factory=list)
    foreign: list[ForeignKey] = field(default_factory=list)
    indexes: list[Index] = field(default_factory=list)
    rows: list[Row] = field(default_factory=list)

    def column(self, name: str) -> Column:
        """The column of this name."""
        return next(column for column in self.columns if column.name == name)

    def names(self) -> list[str]:
        """The columns' names in their order."""
        return [column.name for column in self.columns]

    def keys(self) -> list[Key]:
        """What keeps rows apart by name: the primary key and the unique constraints."""
        return ([self.primary] if self.primary else []) + self.uniques

    def covered(self) -> set[str]:
        """The columns that stand in a key, a unique constraint, an index or a foreign key."""
        return {name for part in [*self.keys(), *self.indexes, *self.foreign] for name in part.columns}


@dataclass
class View:
    """A view: its columns, the table and all columns that its query names, its query and its rows."""

    name: Name
    columns: list[Column]
    table: Optional[Name] = None
    needs: frozenset[str] = frozenset()
    query: str = ""
    rows: list[Row] = field(default_factory=list)


@dataclass
class Schema:
    """A database's tables, views and sequences by name."""

    tables: dict[Name, Table] = field(default_factory=dict)
    views: dict[Name, View] = field(default_factory=dict)
    sequences: set[Name] = field(default_factory=set)

    def is_empty(self) -> bool:
        """Nothing is there."""
        return not (self.tables or self.views or self.sequences)

    def taken(self, schema: str) -> set[str]:
        """The names of a schema's shared space in PostgreSQL."""
        names = {it.text for it in [*self.tables, *self.views, *self.sequences] if it.schema == schema}
        return names | {part.name for table in self.tables.values() if table.name.schema == schema
                        for part in [*table.keys(), *table.indexes]}

    def parents_first(self) -> list[Table]:
        """The tables, each behind those that its foreign keys aim at."""
        done: dict[Name, Table] = {}

        def take(name: Name, path: frozenset[Name]) -> None:
            if name in done or name in path:
                return
            for key in self.tables[name].foreign:
                take(key.parent, path | {name})
            done[name] = self.tables[name]

        for name in sorted(self.tables):
            take(name, frozenset())
        return list(done.values())

    def ancestors(self, table: Table) -> list[Table]:
        """The other tables that a row of this one needs rows in, parents first."""
        needed: set[Name] = set()
        open_names = [key.parent for key in table.foreign]
        while open_names:
            name = open_names.pop()
            if name not in needed:
                needed.add(name)
                open_names += [key.parent for key in self.tables[name].foreign]
        return [it for it in self.parents_first() if it.name in needed - {table.name}]


def decimal(units: int, places: int) -> Decimal:
    """A number of so many units, each of so many decimals; of any length."""
    return Decimal(f"{units}E-{places}")


def quoted(profile: str, name: str | Name) -> str:
    """A name in the quotes of the profile, behind its schema where that is not `public`."""
    if isinstance(name, Name):
        parts = name[:1] if name.schema == PUBLIC else (name.schema, name.text)
        return ".".join(quoted(profile, part) for part in parts)
    quote = '"' if profile == POSTGRESQL else "`"
    return quote + name.replace(quote, 2 * quote) + quote


def listed(profile: str, names) -> str:
    """Names with commas between."""
    return ", ".join(quoted(profile, name) for name in names)


def literal(profile: str, value: Value) -> str:
    """A value as it is written in SQL."""
    if value is None:
        return "NULL"
    if isinstance(value, bool):
        return "TRUE" if value else "FALSE"
    if isinstance(value, int):
        return str(value)
    if isinstance(value, Decimal):
        return format(value, "f")
    text = value.replace("\\", "\\\\") if profile == MYSQL else value
    return "'" + text.replace("'", "''") + "'"


def value_of(kind: Kind, text: Optional[str]) -> Value:
    """The value that a server's answer is in a kind."""
    if text is None:
        return None
    if kind.word == "boolean":
        return text in ("true", "1")
    if kind.word in ("int", "bigint"):
        return int(text)
    if kind.word == "decimal":
        return Decimal(text)
    return Moment(text) if kind.word == "timestamp" else text


def equals(profile: str, row: Row) -> str:
    """The test that holds for the rows with these values."""
    signs = {name: "IS" if value is None else "=" for name, value in row.items()}
    return " AND ".join(f"{quoted(profile, name)} {signs[name]} {literal(profile, row[name])}" for name in row)


def insert(profile: str, table: Name, row: Row) -> str:
    """The INSERT of a row."""
    values = ", ".join(literal(profile, value) for value in row.values())
    return f"INSERT INTO {quoted(profile, table)} ({listed(profile, row)}) VALUES ({values})"
