"""Changes of rows, and statements as SQL."""
from __future__ import annotations

from typing import Optional

from . import conditions
from .made_parts import Parts, has_parent, has_twins
from .making import Step, change, placed_change
from .schema import MYSQL, Column, Name, Row, Table, equals, literal, quoted


class Rows(Parts):
    """The changes that docs/CHANGES.md has under rows, SQL and the rest."""

    def insert(self) -> Optional[Step]:
        """Inserts a row that goes in, and differs from all others."""
        table = self.pick(it for it in self.schema.tables.values() if len(it.rows) < 12)
        for _ in range(8 if table else 0):
            said = self.said_row(table)
            row = {column.name: said.get(column.name, self.next[table.name] if column.numbered else column.default)
                   for column in table.columns}
            if said and row not in table.rows and self.goes_in(table, table.rows, row):
                self.count_on(table, said)
                table.rows.append(row)
                done = self.statement(table.name, *self.insert_row(table.name, said))
                undo = placed_change(table.name, *self.delete_of(table, equals(self.profile, row)))
                return Step([done], [undo], False)
        return None

    def said_row(self, table: Table) -> Row:
        """The values that an INSERT states: of parents that are there, or any."""
        row: Row = {}
        for key in table.foreign:
            parent = self.pick(self.schema.tables[key.parent].rows)
            for name, target in zip(key.columns, key.targets):
                row[name] = parent[target] if parent else None
        for column in table.columns:
            if column.name in row or self.chance(0.6 if column.numbered else 0.15):
                continue
            row[column.name] = None if column.nullable and self.chance(0.15) else self.value(column.kind)
        return {name: row[name] for name in table.names() if name in row}

    def count_on(self, table: Table, said: Row) -> None:
        """Sets the next number of a table; MySQL goes on behind a number that is stated."""
        numbered = next((column.name for column in table.columns if column.numbered), None)
        if numbered and numbered not in said:
            self.next[table.name] += 1
        elif numbered and self.profile == MYSQL:
            self.next[table.name] = max(self.next[table.name], said[numbered] + 1)

    def goes_in(self, table: Table, others: list[Row], row: Row) -> bool:
        """A row fits its columns, differs from the others where it has to, and has its parents."""
        if any(row[column.name] is None and not column.nullable for column in table.columns):
            return False
        if any(column.numbered and not 0 < row[column.name] < 1000 for column in table.columns):
            return False
        parts = [*table.keys(), *(index for index in table.indexes if index.unique)]
        if any(has_twins([*others, row], part.columns) for part in parts):
            return False
        return all(has_parent(row, key, self.schema.tables[key.parent].rows) for key in table.foreign)

    def update(self) -> Optional[Step]:
        """Updates rows in one or two columns of no key; a unique value for one row at most."""
        table = self.pick(it for it in self.schema.tables.values() if it.primary)
        if not table:
            return None
        fixed = {*table.primary.columns, *(name for key in table.foreign for name in key.columns),
                 *(name for key in self.targeting(table) for name in key.targets)}
        names = [name for name in table.names() if name not in fixed]
        names = self.random.sample(names, min(len(names), self.random.randint(1, 2)))
        test = conditions.made(self.random, self.profile, table, self.value)
        hit = [row for row in table.rows if test.on(row)]
        said = {name: None if table.column(name).nullable and self.chance(0.2) else self.value(table.column(name).kind)
                for name in names}
        after = [{**row, **said} if row in hit else row for row in table.rows]
        if not said or not all(self.goes_in(table, after[:place], row) for place, row in enumerate(after)):
            return None
        undo = [self.put_back(table, row, names) for row in hit]
        table.rows = after
        return Step([self.statement(table.name, *self.update_of(table, said, test.sql))], undo, False)

    def delete(self) -> Optional[Step]:
        """Deletes rows, with those that cascade; nothing that another row needs."""
        table = self.pick(self.schema.tables.values())
        if not table or has_equal_rows(table):
            return None
        test = conditions.made(self.random, self.profile, table, self.value)
        gone = self.gone_with(table, [row for row in table.rows if test.on(row)])
        if gone is None:
            return None
        undo = [placed_change(it.name, *self.insert_row(it.name, row)) for it in self.schema.parents_first()
                for row in gone.get(it.name, [])]
        for name, rows in gone.items():
            self.schema.tables[name].rows = [row for row in self.schema.tables[name].rows if row not in rows]
        return Step([self.statement(table.name, *self.delete_of(table, test.sql))], undo, False)

    def delete_of(self, table: Table, where: str) -> tuple[str, dict]:
        """The SQL and the change that delete rows."""
        return (f"DELETE FROM {quoted(self.profile, table.name)} WHERE {where}",
                change("delete", tableName=table.name, where=where))

    def gone_with(self, table: Table, rows: list[Row]) -> Optional[dict[Name, list[Row]]]:
        """All rows that go with these, by table; None where one that stays needs one."""
        gone = {table.name: rows}
        for it in self.schema.parents_first():
            for key in it.foreign:
                lost = [row for row in it.rows if None not in (row[name] for name in key.columns)
                        and has_parent(row, key, gone.get(key.parent, []))]
                if lost and not key.cascade:
                    return None
                there = gone.setdefault(it.name, [])
                there += [row for row in lost if row not in there]
        return gone

    def statement(self, table: Name, sql: str, spelt: dict) -> dict:
        """A change of rows, at times as SQL."""
        return change("sql", sql=sql) if self.chance(0.25) else placed_change(table, sql, spelt)

    def create_by_sql(self) -> Optional[Step]:
        """A table in SQL, made and given a column more."""
        table = Table(self.placed("t"), [self.column(), self.column()])
        self.schema.tables[table.name], self.next[table.name] = table, 1
        name, (first, second) = quoted(self.profile, table.name), map(self.column_sql, table.columns)
        script = f"create table {name} ({first}); -- and then\nALTER TABLE {name} ADD {second}"
        return Step([change("sql", sql=script)], [change("dropTable", tableName=table.name)], False)

    def column_sql(self, column: Column) -> str:
        """A column as it stands in CREATE TABLE."""
        default = "" if column.default is None else f" DEFAULT {literal(self.profile, column.default)}"
        end = "" if column.nullable else " NOT NULL"
        return f"{quoted(self.profile, column.name)} {self.spelt(column.kind)}{default}{end}"

    def nothing(self) -> Step:
        """A change without a statement."""
        return Step([{"empty": {}}], [])


def has_equal_rows(table: Table) -> bool:
    """Two rows are equal in all columns."""
    return any(row in table.rows[:place] for place, row in enumerate(table.rows))
