"""What a server's information schema says of its schemas, and the rows of its tables and views."""
from __future__ import annotations

from itertools import groupby
from typing import Iterable

from .schema import (MYSQL, POSTGRESQL, PUBLIC, Column, ForeignKey, Index, Key, Kind, Name, Row, Schema, Table, View,
                     quoted, value_of)
from .servers import DATABASE, Query, Server

KINDS = {
    "integer": "int", "int": "int", "bigint": "bigint", "boolean": "boolean", "tinyint": "boolean", "text": "text",
    "character varying": "varchar", "varchar": "varchar", "numeric": "decimal", "decimal": "decimal",
    "timestamp without time zone": "timestamp", "datetime": "timestamp",
}
COLUMN_FIELDS = ["table_schema", "table_name", "column_name", "data_type", "character_maximum_length",
                 "numeric_precision", "numeric_scale", "is_nullable"]
NUMBERED = {POSTGRESQL: "is_identity = 'YES'", MYSQL: "extra LIKE '%auto_increment%'"}
OWN = {POSTGRESQL: "NOT IN ('information_schema', 'pg_catalog', 'pg_toast')", MYSQL: "= DATABASE()"}

KEYS = """FROM information_schema.table_constraints c JOIN information_schema.key_column_usage k
    ON k.constraint_schema = c.constraint_schema AND k.constraint_name = c.constraint_name
    AND k.table_name = c.table_name
    WHERE c.table_schema {own} AND c.constraint_type IN ('PRIMARY KEY', 'UNIQUE')
    ORDER BY c.table_schema, c.table_name, c.constraint_name, k.ordinal_position"""
FOREIGN_KEYS = {
    POSTGRESQL: Query(["k.table_schema", "k.table_name", "k.constraint_name", "u.table_schema", "u.table_name",
                       "r.delete_rule", "k.column_name", "u.column_name"],
        f"""FROM information_schema.referential_constraints r
        JOIN information_schema.key_column_usage k
        ON k.constraint_schema = r.constraint_schema AND k.constraint_name = r.constraint_name
        JOIN information_schema.key_column_usage u
        ON u.constraint_schema = r.unique_constraint_schema AND u.constraint_name = r.unique_constraint_name
        AND u.ordinal_position = k.position_in_unique_constraint
        WHERE r.constraint_schema {OWN[POSTGRESQL]}
        ORDER BY k.table_schema, k.table_name, k.constraint_name, k.ordinal_position"""),
    MYSQL: Query(["k.table_schema", "k.table_name", "k.constraint_name", "k.referenced_table_schema",
                  "k.referenced_table_name", "r.delete_rule", "k.column_name", "k.referenced_column_name"],
        f"""FROM information_schema.referential_constraints r
        JOIN information_schema.key_column_usage k ON k.constraint_schema = r.constraint_schema
        AND k.constraint_name = r.constraint_name AND k.table_name = r.table_name
        WHERE r.constraint_schema {OWN[MYSQL]} ORDER BY k.table_name, k.constraint_name, k.ordinal_position"""),
}
INDEXES = {  # in postgresql the information schema has none
    POSTGRESQL: Query(["n.nspname", "t.relname", "i.relname", "x.indisunique", "a.attname"],
        f"""FROM pg_index x JOIN pg_class i ON i.oid = x.indexrelid JOIN pg_class t ON t.oid = x.indrelid
        JOIN pg_namespace n ON n.oid = t.relnamespace
        CROSS JOIN LATERAL unnest(x.indkey) WITH ORDINALITY AS k (attnum, place)
        JOIN pg_attribute a ON a.attrelid = t.oid AND a.attnum = k.attnum
        WHERE n.nspname {OWN[POSTGRESQL]}
        AND NOT EXISTS (SELECT FROM pg_constraint c WHERE c.conindid = i.oid AND c.contype IN ('p', 'u'))
        ORDER BY n.nspname, t.relname, i.relname, k.place"""),
    MYSQL: Query(["table_schema", "table_name", "index_name", "'false'", "column_name"],
        f"""FROM information_schema.statistics WHERE table_schema {OWN[MYSQL]} AND non_unique = 1
        ORDER BY table_name, index_name, seq_in_index"""),
}
SEQUENCES = {
    POSTGRESQL: Query(["sequence_schema", "sequence_name"], "FROM information_schema.sequences"),
    MYSQL: Query(["1", "1"], "WHERE FALSE"),
}


def read(server: Server, made_for_keys: set[str]) -> Schema:
    """The schemas as the server has them, without indexes of the given names, which it made for foreign keys."""
    profile = server.profile
    where = f"WHERE table_schema {OWN[profile]}"
    tables, columns, keys, foreign, indexes, sequences = server.ask([
        Query(["table_schema", "table_name", "table_type"], f"FROM information_schema.tables {where}"),
        Query(COLUMN_FIELDS + [f"CASE WHEN {NUMBERED[profile]} THEN 'yes' END"],
              f"FROM information_schema.columns {where} ORDER BY table_schema, table_name, ordinal_position"),
        Query(["c.table_schema", "c.table_name", "c.constraint_name", "c.constraint_type", "k.column_name"],
              KEYS.format(own=OWN[profile])),
        FOREIGN_KEYS[profile], INDEXES[profile], SEQUENCES[profile]])
    schema = Schema(sequences={name_of(*line) for line in sequences})
    for *place, sort in tables:
        name, own = name_of(*place), [column_of(it) for it in columns if it[:2] == place]
        if sort == "VIEW":
            schema.views[name] = View(name, own)
        else:
            schema.tables[name] = Table(name, own)
    put_keys(schema, keys)
    put_foreign_keys(schema, foreign)
    for (*table, name, unique), lines in grouped(indexes, 4):
        if name not in made_for_keys:
            index = Index(name, tuple(line[4] for line in lines), unique == "true")
            schema.tables[name_of(*table)].indexes.append(index)
    read_rows(server, [*schema.tables.values(), *schema.views.values()])
    return schema


def name_of(schema: str, text: str) -> Name:
    """A name of a server; what MySQL has in its database is in `public`."""
    return Name(text, PUBLIC if schema == DATABASE else schema)


def grouped(lines: Iterable, width: int) -> Iterable:
    """Neighbours that agree in their first fields, with these fields."""
    return groupby(lines, key=lambda line: tuple(line[:width]))


def column_of(line: list) -> Column:
    """A column as the information schema describes it."""
    _, _, name, word, length, precision, scale, nullable, numbered = line
    word = KINDS.get(word, word)
    sizes = {"varchar": [length], "decimal": [precision, scale]}.get(word, [])
    return Column(name, Kind(word, tuple(map(int, sizes))), nullable == "YES", numbered=numbered is not None)


def put_keys(schema: Schema, lines: list) -> None:
    """Gives the tables their primary keys and unique constraints."""
    for (*place, name, sort), group in grouped(lines, 4):
        table, key = schema.tables[name_of(*place)], Key(name, tuple(line[4] for line in group))
        if sort == "UNIQUE":
            table.uniques.append(key)
        else:
            table.primary = key


def put_foreign_keys(schema: Schema, lines: list) -> None:
    """Gives the tables their foreign keys."""
    for (schema_name, table, name, *parent, rule), group in grouped(lines, 6):
        columns, targets = zip(*(line[6:] for line in group))
        key = ForeignKey(name, columns, name_of(*parent), targets, rule == "CASCADE")
        schema.tables[name_of(schema_name, table)].foreign.append(key)


def rows_query(profile: str, of: Table | View) -> Query:
    """The query of all rows of a table or a view."""
    fields = []
    for column in of.columns:
        name = quoted(profile, column.name)
        is_moment = profile == POSTGRESQL and column.kind.word == "timestamp"
        fields.append(f"to_char({name}, 'YYYY-MM-DD HH24:MI:SS.MS')" if is_moment else name)
    return Query(fields, f"FROM {quoted(profile, of.name)}")


def rows_of(of: Table | View, answer: list) -> list[Row]:
    """The rows that a server answered."""
    return [{column.name: value_of(column.kind, text) for column, text in zip(of.columns, line)} for line in answer]


def read_rows(server: Server, parts: list[Table | View]) -> None:
    """Gives tables and views their rows."""
    answers = server.ask([rows_query(server.profile, part) for part in parts])
    for part, answer in zip(parts, answers):
        part.rows = rows_of(part, answer)
