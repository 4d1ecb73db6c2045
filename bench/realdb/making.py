"""What every change of a made changelog needs: names, kinds, values, and how the JSON of a changelog spells them."""
from __future__ import annotations

from datetime import datetime, timedelta
from decimal import Decimal
from random import Random
from typing import NamedTuple, Optional

from .schema import (MYSQL, POSTGRESQL, PUBLIC, SCHEMAS, Column, ForeignKey, Index, Key, Kind, Moment, Name, Schema,
                     Table, Value, decimal)

WORDS = ["order", "customer", "Item", "stock", "price list", "größe", "note", "select", "user", "value", "état",
         "Group"]
TEXTS = ["", "a", "it's", "back\\slash", "two\nlines", "tab\there", 'said "so"', "größe", "日本語", "😀 smile",
         "100% _x_", "; --", "/* no */", " blanks around ", "NULL", "$$", "`grave`", "x" * 300]
WORDS_OF_KINDS = ["int", "bigint", "boolean", "varchar", "varchar", "text", "timestamp", "decimal", "decimal"]
SPELLINGS = {"int": ["int", "INTEGER"], "boolean": ["boolean", "bool"], "text": ["text", "clob"],
             "timestamp": ["timestamp", "datetime", "datetime(3)"]}
SCHEMA_KEYS = {"tableName": "schemaName", "oldTableName": "schemaName", "baseTableName": "baseTableSchemaName",
               "referencedTableName": "referencedTableSchemaName"}
FIRST_YEAR = datetime(1000, 1, 1)


class Step(NamedTuple):
    """Changes, the changes that take them back exactly, and whether the generated inverses do so too or nearly."""

    changes: list[dict]
    undo: list[dict]
    generated: bool = True


class Making:
    """The state of a changelog in the making: what its changes have made so far, rows included."""

    def __init__(self, profile: str, number: int):
        self.profile = profile
        self.random = Random(f"{profile} {number}")
        self.schema = Schema()
        self.sequences: dict[Name, tuple[int, int]] = {}
        self.used: set[Name] = set()
        self.made: list[str] = []
        self.next: dict[Name, int] = {}

    def chance(self, share: float) -> bool:
        """True in this share of all cases."""
        return self.random.random() < share

    def pick(self, things) -> Optional[object]:
        """One of several things, or None of none."""
        things = list(things)
        return self.random.choice(things) if things else None

    def placed(self, prefix: str) -> Name:
        """A name for something new in any schema; in MySQL there is one."""
        schema = self.random.choice(SCHEMAS) if self.profile == POSTGRESQL and self.chance(0.7) else PUBLIC
        return Name(self.name(prefix, schema), schema)

    def name(self, prefix: str, schema: str = PUBLIC) -> str:
        """A name that nothing of its schema had before, in any case of its letters."""
        while True:
            name = f"{prefix}_{self.random.choice(WORDS)}_{self.random.randint(1, 99)}"
            if self.chance(0.1):
                name += self.random.choice(['"', "`", "'", ".", " x"])
            if self.profile == POSTGRESQL and self.chance(0.4):  # one of another schema
                name = self.pick(it for it in self.made if it.startswith(prefix + "_")) or name
            if self.is_new(name, schema):
                return name

    def is_new(self, name: str, schema: str) -> bool:
        """Nothing of the schema had the name before; from now on something has."""
        key = Name(name.lower(), schema)
        if key in self.used:
            return False
        self.used.add(key)
        self.made.append(name)
        return True

    def default_name(self, prefix: str, table: Name, *parts: str) -> Optional[str]:
        """The name that a table's part gets where none is stated, unless it was had before."""
        name = "_".join([prefix, table.text, *parts])
        return name if len(name.encode()) <= 63 and self.is_new(name, table.schema) else None

    def named(self, prefix: str, table: Name, *parts: str) -> tuple[str, bool]:
        """A name for a table's part, and whether it has to be stated."""
        name = self.default_name(prefix, table, *parts) if self.chance(0.2) else None
        return (name, False) if name else (self.name(prefix, table.schema), True)

    def kind(self) -> Kind:
        """A type of any sort; MySQL has at most 30 decimals and 65,535 bytes in a row."""
        word = self.random.choice(WORDS_OF_KINDS)
        if word == "varchar":
            return Kind(word, (self.random.choice([1, 5, 20, 80, 255] + [1000, 10000] * (self.profile == POSTGRESQL)),))
        if word == "decimal":
            digits = self.random.choice([1, 5, 10, 18, 30, 38])
            return Kind(word, (digits, self.random.choice([0, min(2, digits), min(digits, 30)])))
        return Kind(word)

    def is_keyable(self, column: Column) -> bool:
        """MySQL has no index on a whole text."""
        return self.profile == POSTGRESQL or column.kind.word != "text"

    def value(self, kind: Kind) -> Value:
        """A value of a kind, at times one at its edges."""
        if kind.word in ("int", "bigint"):
            edge = 2 ** (31 if kind.word == "int" else 63)
            return self.random.choice([-edge, edge - 1]) if self.chance(0.1) else self.random.randint(-3, 30)
        if kind.word == "boolean":
            return self.chance(0.5)
        if kind.word == "decimal":
            digits, places = kind.sizes
            units = 10**digits - 1 if self.chance(0.1) else self.random.randrange(10 ** min(digits, 4))
            return decimal(self.random.choice([1, -1]) * units, places)
        if kind.word == "timestamp":
            return self.moment()
        return self.random.choice(TEXTS)[: kind.sizes[0] if kind.sizes else None]

    def moment(self) -> Moment:
        """A moment of the years 1000 to 9999, often one without a time of day."""
        it = FIRST_YEAR + timedelta(days=self.random.randrange(3287000))
        if self.chance(0.7):
            it += timedelta(milliseconds=self.random.randrange(86400000))
        return Moment(it.isoformat(" ", "milliseconds"))

    def column(self) -> Column:
        """A column that is not numbered."""
        column = Column(self.name("c"), self.kind(), nullable=self.chance(0.7))
        if self.chance(0.3):
            column.default = self.value(column.kind)
        return column

    def spelt(self, kind: Kind) -> str:
        """One of the words of a type."""
        return self.random.choice(SPELLINGS.get(kind.word, [str(kind)]))

    def is_in_view(self, table: Name, column: Optional[str] = None) -> bool:
        """A view names the table, or this column of it."""
        return any(it.table == table and (column is None or column in it.needs) for it in self.schema.views.values())

    def targeting(self, table: Table) -> list[ForeignKey]:
        """The foreign keys that aim at a table."""
        return [key for it in self.schema.tables.values() for key in it.foreign if key.parent == table.name]

    def is_support(self, table: Table, part: Key | Index) -> bool:
        """MySQL wants an index for each foreign key: this one is the only one that was made."""
        others = [it for it in [*table.keys(), *table.indexes] if it != part]
        return self.profile == MYSQL and any(
            leads(part, key) and not any(leads(it, key) for it in others) for key in table.foreign)


def leads(part: Key | Index, key: ForeignKey) -> bool:
    """The first columns of an index are those of a foreign key."""
    return set(part.columns[: len(key.columns)]) == set(key.columns)


def stated(value: Value, family: str = "value") -> dict:
    """A value under the key of its sort."""
    if value is None:
        return {}
    if isinstance(value, bool):
        return {family + "Boolean": value}
    if isinstance(value, Decimal):
        return {family + "Numeric": format(value, "f")}
    if isinstance(value, int):
        return {family + "Numeric": value}
    return {family + ("Date" if isinstance(value, Moment) else ""): str(value)}


def change(kind: str, **keys) -> dict:
    """A change; keys that are None are left out, and a name's schema has a key of its own."""
    schemas = {SCHEMA_KEYS[key]: name.schema for key, name in keys.items()
               if isinstance(name, Name) and name.schema != PUBLIC and key in SCHEMA_KEYS}
    texts = {key: value.text if isinstance(value, Name) else value for key, value in keys.items()}
    return {kind: {key: value for key, value in {**texts, **schemas}.items() if value is not None}}


def placed_change(name: Name, sql: str, spelt: dict) -> dict:
    """A change of a type that knows `public` alone; in another schema it is SQL."""
    return spelt if name.schema == PUBLIC else change("sql", sql=sql)
