"""Questions to our engine: a changelog whose changesets run, or do not, and an update-sql that says which would."""
from __future__ import annotations

import json
import re
from collections import Counter
from pathlib import Path
from typing import Callable, NamedTuple, Optional

from .making import change
from .schema import (MYSQL, PUBLIC, SCHEMAS, ForeignKey, Index, Key, Name, Schema, Table, View, equals,
                     quoted)

FILE = "questions.json"
SHOWN = 160  # characters of a question that are told


class Question(NamedTuple):
    """What is asked, and whether its changeset has to run; None where that is all the same."""

    text: str
    expected: Optional[bool]


class Questions:
    """A changelog of questions. A condition that does not hold, and a refused statement, skips its changeset."""

    def __init__(self, profile: str):
        self.profile = profile
        self.asked: list[Question] = []
        self.sets: list[dict] = []

    def put(self, text: str, expected: Optional[bool], **keys) -> None:
        """Adds a changeset."""
        made = {"id": str(len(self.sets)), "author": "trial", "failOnError": False, **keys}
        self.asked.append(Question(text, expected))
        self.sets.append({"changeSet": made})

    def holds(self, text: str, conditions: list[dict]) -> None:
        """All conditions have to hold."""
        if conditions:
            self.put(text, True, preConditions=[{"onFail": "CONTINUE"}, {"onError": "CONTINUE"}, *conditions])

    def lacks(self, text: str, conditions: list[dict]) -> None:
        """None of the conditions may hold."""
        if conditions:
            self.holds(text, [{"not": conditions}])

    def does(self, text: str, made: dict, expected: Optional[bool]) -> None:
        """A change has to be accepted, or refused."""
        self.put(text, expected, changes=[made])

    def wrong(self, update_sql: Callable[[str], str], folder: Path) -> list[str]:
        """Asks, and tells the questions that were answered otherwise."""
        (folder / FILE).write_text(json.dumps({"databaseChangeLog": self.sets}), encoding="utf-8")
        printed = update_sql(FILE)
        ran = {int(number) for number in re.findall(rf"^-- Changeset {re.escape(FILE)}::(\d+)::trial$", printed, re.M)}
        return [f"{it.text[:SHOWN]}: {'not so' if it.expected else 'accepted'}" for number, it in enumerate(self.asked)
                if it.expected is not None and it.expected != (number in ran)]


def ask_names(questions: Questions, schema: Schema, names: set[str]) -> None:
    """Asks for all that is there, and that nothing else is there under any of the names that ever were."""
    sorts = [("tableExists", "tableName", schema.tables), ("viewExists", "viewName", schema.views)]
    if questions.profile != MYSQL:
        sorts.append(("sequenceExists", "sequenceName", schema.sequences))
        for place in SCHEMAS:
            ask_space(questions, place, schema.taken(place), names)
    for condition, key, of in sorts:
        there = [name.text for name in of if name.schema == PUBLIC]
        for name in there:
            questions.holds(f"{condition} {name}", [{condition: {key: name}}])
        gone = sorted(names - set(there))
        questions.lacks(f"{condition} none but {sorted(there)}", [{condition: {key: name}} for name in gone])
    for table in [it for name, it in schema.tables.items() if name.schema == PUBLIC]:
        ask_columns(questions, table, names)
        ask_keys(questions, table, names)


def ask_space(questions: Questions, schema: str, taken: set[str], names: set[str]) -> None:
    """Asks which names of a schema's shared space are taken: a sequence can have each of the others."""
    def made(name: str) -> str:
        sequence = quoted(questions.profile, Name(name, schema))
        return f"CREATE SEQUENCE {sequence} START WITH 1 INCREMENT BY 1; DROP SEQUENCE {sequence}"

    free = "; ".join(map(made, sorted(names - taken)))
    questions.does(f"no names in {schema} but {sorted(taken)}", {"sql": {"sql": free}}, True)
    for name in sorted(taken):
        questions.does(f"{name} again in {schema}", {"sql": {"sql": made(name)}}, False)


def ask_columns(questions: Questions, table: Table, names: set[str]) -> None:
    """Asks for a table's columns and for no others."""
    def condition(name: str) -> dict:
        return {"columnExists": {"tableName": table.name.text, "columnName": name}}

    for name in table.names():
        questions.holds(f"column {name} of {table.name}", [condition(name)])
    questions.lacks(f"no columns of {table.name} but {table.names()}",
                    [condition(name) for name in sorted(names - set(table.names()))])


def ask_keys(questions: Questions, table: Table, names: set[str]) -> None:
    """Asks for a table's keys, constraints and indexes, and for no others."""
    it = table.name.text
    sorts = {
        "unique": (lambda name: {"uniqueConstraintExists": {"tableName": it, "constraintName": name}}, table.uniques),
        "index": (lambda name: {"indexExists": {"tableName": it, "indexName": name}}, table.indexes),
        "foreign key": (
            lambda name: {"foreignKeyConstraintExists": {"foreignKeyTableName": it, "foreignKeyName": name}},
            table.foreign),
        "primary key": (lambda name: {"primaryKeyExists": {"tableName": it, "primaryKeyName": name}},
                        [table.primary] if table.primary else []),
    }
    alike = {part.name for part in [*table.uniques, *table.indexes]} if questions.profile == MYSQL else set()
    for sort, (condition, there) in sorts.items():
        for part in there:
            # there a unique index and a unique constraint are one thing
            either = sort == "unique" and alike and [{"or": [condition(part.name), sorts["index"][0](part.name)]}]
            questions.holds(f"{sort} {part.name} of {it}", either or [condition(part.name)])
        has = [part.name for part in there]
        gone = names - set(has) - (alike if sort in ("unique", "index") else set())
        questions.lacks(f"no {sort} of {it} but {has}", [condition(name) for name in sorted(gone)])
    if not table.primary:
        questions.lacks(f"no primary key of {it}", [{"primaryKeyExists": {"tableName": it}}])


def row_conditions(profile: str, of: Table | View) -> list[dict]:
    """The conditions that hold where a table or view has just its rows."""
    count = f"SELECT COUNT(*) FROM {quoted(profile, of.name)}"
    if isinstance(of, View) or of.name.schema != PUBLIC:
        conditions = [sql_check(count, len(of.rows))]
    elif of.rows:
        conditions = [{"rowCount": {"tableName": of.name.text, "expectedRows": len(of.rows)}}]
    else:
        conditions = [{"tableIsEmpty": {"tableName": of.name.text}}]
    alike = Counter(tuple(row.items()) for row in of.rows)
    conditions += [sql_check(f"{count} WHERE {equals(profile, dict(row))}", times) for row, times in alike.items()]
    return conditions


def sql_check(query: str, result: int) -> dict:
    """The condition that a query's one value prints so."""
    return {"sqlCheck": {"expectedResult": result, "sql": query}}


def ask_rows(questions: Questions, schema: Schema) -> None:
    """Asks for the rows of all tables and views."""
    for of in [*schema.tables.values(), *schema.views.values()]:
        questions.holds(f"{len(of.rows)} rows of {of.name}", row_conditions(questions.profile, of))


class Apart:
    """Takes everything apart: a column goes when the last part that has it is gone, and not before."""

    def __init__(self, questions: Questions, schema: Schema):
        self.questions = questions
        self.schema = schema
        self.left = {table.name: table.names() for table in schema.tables.values()}
        self.parts = {table.name: [*table.foreign, *table.indexes, *table.keys()] for table in schema.tables.values()}

    def ask(self) -> None:
        """Views first, then what no part has, then foreign keys, and then the rest."""
        for name in self.schema.views:
            drop = {"sql": {"sql": f"DROP VIEW {quoted(self.questions.profile, name)}"}}
            self.questions.does(f"drop view {name}", drop, True)
        for table in self.schema.tables.values():
            for name in [name for name in table.names() if name not in table.covered()]:
                self.drop_column(table, name)
        for table in self.schema.tables.values():
            for key in table.foreign:
                drop = change("dropForeignKeyConstraint", baseTableName=table.name, constraintName=key.name)
                self.take_off(table, key, [drop])
        for table in self.schema.tables.values():
            self.take_keys(table)

    def take_keys(self, table: Table) -> None:
        """Takes off indexes, unique constraints and the primary key of a table."""
        is_mysql = self.questions.profile == MYSQL
        for index in table.indexes:
            self.take_off(table, index, [change("dropIndex", tableName=table.name, indexName=index.name)])
        for key in table.uniques:
            drops = [change("dropUniqueConstraint", tableName=table.name, constraintName=key.name)]
            if is_mysql:
                drops.append(change("dropIndex", tableName=table.name, indexName=key.name))
            self.take_off(table, key, drops)
        if table.primary:
            name = None if is_mysql else table.primary.name
            drop = change("dropPrimaryKey", tableName=table.name, constraintName=name)
            if any(column.numbered for column in table.columns):
                self.questions.does(f"drop the key of {table.name}, whose column is numbered", drop, False)
            else:
                self.take_off(table, table.primary, [drop])

    def take_off(self, table: Table, part: Key | Index | ForeignKey, drops: list[dict]) -> None:
        """Drops a part; of the columns that it alone has, none goes before, and all go after."""
        self.parts[table.name].remove(part)
        others = {name for it in self.parts[table.name] for name in it.columns}
        own = [name for name in part.columns if name not in others]
        for name in own:
            text = f"drop column {name} of {table.name}, which {part.name} has"
            self.questions.does(text, drop_column(table, name), False)
        for drop in drops:
            self.questions.does(f"drop {part.name} of {table.name}", drop, True if len(drops) == 1 else None)
        for name in own:
            self.drop_column(table, name)

    def drop_column(self, table: Table, name: str) -> None:
        """Drops a column that no part has, unless it is the last."""
        left = self.left[table.name]
        if len(left) > 1:
            left.remove(name)
            text = f"drop column {name} of {table.name}, which nothing has"
            self.questions.does(text, drop_column(table, name), True)


def drop_column(table: Table, name: str) -> dict:
    """The change that drops a column."""
    return change("dropColumn", tableName=table.name, columnName=name)
