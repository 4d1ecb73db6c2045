"""Changes of tables and columns, and of what a column says: NOT NULL and its default."""
from __future__ import annotations

from dataclasses import replace
from decimal import Decimal
from typing import Optional

from .making import Making, Step, change, placed_change, stated
from .schema import (MYSQL, POSTGRESQL, Column, ForeignKey, Index, Key, Kind, Name, Row, Table, Value, equals, insert,
                     literal, quoted)


class Tables(Making):
    """The changes that docs/CHANGES.md has under tables and columns, NOT NULL and defaults."""

    def column_json(self, table: Table, column: Column, inline: bool = True, **more) -> dict:
        """A column of createTable or addColumn; with its unique constraint and foreign key, where they are inline."""
        limits: dict = {}
        if table.primary and column.name in table.primary.columns:
            limits["primaryKey"] = True
            if table.primary.name != f"pk_{table.name.text}":
                limits["primaryKeyName"] = table.primary.name
        elif not column.nullable:
            limits["nullable"] = False
        for key in table.uniques if inline else []:
            if key.columns == (column.name,):
                limits["unique"] = True
                if key.name != f"uq_{table.name.text}_{column.name}":
                    limits["uniqueConstraintName"] = key.name
        for key in table.foreign if inline else []:
            if key.columns == (column.name,):
                limits.update(references=f"{key.parent.text}({key.targets[0]})", foreignKeyName=key.name)
        spelt = {"name": column.name, "type": self.spelt(column.kind), **stated(column.default, "defaultValue"), **more}
        if column.numbered:
            spelt["autoIncrement"] = True
        return {"column": {**spelt, "constraints": limits} if limits else spelt}

    def parent_column(self, schema: str) -> Optional[tuple[Table, Column]]:
        """A column that a foreign key of one column may aim at, with its table, as `references` can spell it there."""
        return self.pick((table, table.column(key.columns[0])) for table in self.schema.tables.values()
                         for key in table.keys() if table.name.schema == schema and len(key.columns) == 1)

    def child_column(self, schema: str) -> Optional[tuple[Column, ForeignKey]]:
        """A new column that may be null, with a foreign key at a column that is there."""
        found = self.parent_column(schema)
        if not found:
            return None
        parent, target = found
        column = Column(self.name("c"), target.kind)
        return column, ForeignKey(self.name("fk", schema), (column.name,), parent.name, (target.name,))

    def create_table(self) -> Step:
        """A new table, with a key as a rule, perhaps with unique columns and a foreign key."""
        table = Table(self.placed("t"), [self.column() for _ in range(self.random.randint(1, 6))])
        if self.chance(0.7):
            self.put_key(table)
        for column in table.columns:
            is_in_key = table.primary and column.name in table.primary.columns
            if self.chance(0.15) and self.is_keyable(column) and not is_in_key:
                table.uniques.append(Key(self.named("uq", table.name, column.name)[0], (column.name,)))
        child = self.child_column(table.name.schema) if self.chance(0.3) else None
        if child:
            table.columns.append(child[0])
            table.foreign.append(child[1])
        self.schema.tables[table.name] = table
        self.next[table.name] = 1
        columns = [self.column_json(table, column) for column in table.columns]
        return Step([change("createTable", tableName=table.name, columns=columns)],
                    [change("dropTable", tableName=table.name)])

    def put_key(self, table: Table) -> None:
        """Gives a table a primary key: a numbered column of its own, or one or two of its columns."""
        keyable = [column for column in table.columns if self.is_keyable(column)]
        columns = self.random.sample(keyable, min(self.random.choice([1, 1, 2]), len(keyable)))
        if self.chance(0.4) or not columns:
            columns = [Column(self.name("id"), Kind(self.random.choice(["int", "bigint"])), numbered=True)]
            table.columns.insert(0, columns[0])
        for column in columns:
            column.nullable = False
        names = tuple(name for name in table.names() if name in [column.name for column in columns])
        table.primary = Key(self.primary_name(table), names)

    def primary_name(self, table: Table) -> str:
        """The name of a new primary key."""
        return "PRIMARY" if self.profile == MYSQL else self.named("pk", table.name)[0]

    def whole(self, table: Table) -> list[dict]:
        """The changes that make a table again as it is, with its rows."""
        it = table.name
        made = [change("createTable", tableName=it,
                       columns=[self.column_json(table, column, inline=False) for column in table.columns])]
        made += [add_unique(table, key) for key in table.uniques]
        made += [create_index(table, index) for index in table.indexes]
        made += [add_foreign_key(table, key) for key in table.foreign]
        return made + [placed_change(it, *self.insert_row(it, row)) for row in table.rows]

    def insert_row(self, table: Name, row: Row) -> tuple[str, dict]:
        """The SQL and the change that insert a row."""
        columns = [{"column": {"name": name, **stated(value)}} for name, value in row.items()]
        return insert(self.profile, table, row), change("insert", tableName=table, columns=columns)

    def drop_table(self) -> Optional[Step]:
        """Drops a table that nothing needs and whose key has its columns in their order."""
        table = self.pick(it for it in self.schema.tables.values()
                          if not self.targeting(it) and not self.is_in_view(it.name) and is_key_in_order(it))
        if not table or len(self.schema.tables) < 3:
            return None
        undo = self.whole(table)
        del self.schema.tables[table.name]
        return Step([change("dropTable", tableName=table.name)], undo, False)

    def rename_table(self) -> Optional[Step]:
        """Renames a table that no view names."""
        table = self.pick(it for it in self.schema.tables.values() if not self.is_in_view(it.name))
        if not table:
            return None
        old = table.name
        new = old._replace(text=self.name("t", old.schema))
        del self.schema.tables[old]
        self.schema.tables[new] = table
        self.next[new], table.name = self.next[old], new
        for it in self.schema.tables.values():
            it.foreign = [key._replace(parent=new) if key.parent == old else key for key in it.foreign]
        return Step([change("renameTable", oldTableName=old, newTableName=new)],
                    [change("renameTable", oldTableName=new, newTableName=old)])

    def add_column(self) -> Optional[Step]:
        """Adds a column: with a foreign key, with a value for the rows that are there, or plain."""
        table = self.pick(self.schema.tables.values())
        child = self.child_column(table.name.schema) if self.chance(0.3) else None
        if not table or len(table.columns) > 9 or child and not self.may_aim(table, child[1].parent):
            return None
        column, value = child[0] if child else self.column(), None
        if child:
            table.foreign.append(child[1])
        elif not column.nullable and (table.rows or self.chance(0.5)):
            value = self.value(column.kind)
            # MODIFY leaves it no default
            column.default = None if self.profile == MYSQL else column.default
        elif self.chance(0.2) and self.is_keyable(column) and (column.default is None or len(table.rows) < 2):
            table.uniques.append(Key(self.named("uq", table.name, column.name)[0], (column.name,)))
        table.columns.append(column)
        for row in table.rows:
            row[column.name] = column.default if value is None else value
        columns = [self.column_json(table, column, **stated(value))]
        return Step([change("addColumn", tableName=table.name, columns=columns)], self.without_column(table, column))

    def without_column(self, table: Table, column: Column) -> list[dict]:
        """The changes that take a column away again with what belongs to it."""
        parts = [change("dropForeignKeyConstraint", baseTableName=table.name, constraintName=key.name)
                 for key in table.foreign if column.name in key.columns]
        parts += [change("dropUniqueConstraint", tableName=table.name, constraintName=key.name)
                  for key in table.uniques if column.name in key.columns]
        return parts + [change("dropColumn", tableName=table.name, columnName=column.name)]

    def may_aim(self, table: Table, parent: Name) -> bool:
        """A foreign key from the table at the parent leads to no circle."""
        it = self.schema.tables[parent]
        return it is not table and table not in self.schema.ancestors(it)

    def drop_column(self) -> Optional[Step]:
        """Drops a column that nothing needs; its values can be put back where the rows have a key."""
        table, column = self.pick(
            (table, column) for table in self.schema.tables.values() for column in table.columns
            if len(table.columns) > 1 and not column.numbered and column.name not in table.covered()
            and not self.is_in_view(table.name, column.name) and (table.primary or not table.rows)) or (None, None)
        if not table:
            return None
        undo = [change("addColumn", tableName=table.name,
                       columns=[self.column_json(table, replace(column, nullable=True, default=None))])]
        undo += [self.put_back(table, row, [column.name]) for row in table.rows]
        if not column.nullable:
            undo.append(self.not_null("addNotNullConstraint", table, column))
        if column.default is not None:
            undo.append(add_default(table, column))
        table.columns.remove(column)
        for row in table.rows:
            del row[column.name]
        return Step([change("dropColumn", tableName=table.name, columnName=column.name)], undo, False)

    def put_back(self, table: Table, row: dict, names: list[str]) -> dict:
        """The update that gives a row its values again."""
        where = equals(self.profile, {name: row[name] for name in table.primary.columns})
        return placed_change(table.name, *self.update_of(table, {name: row[name] for name in names}, where))

    def update_of(self, table: Table, said: Row, where: str) -> tuple[str, dict]:
        """The SQL and the change that give rows these values."""
        sets = ", ".join(f"{quoted(self.profile, name)} = {literal(self.profile, said[name])}" for name in said)
        columns = [{"column": {"name": name, **stated(value)}} for name, value in said.items()]
        return (f"UPDATE {quoted(self.profile, table.name)} SET {sets} WHERE {where}",
                change("update", tableName=table.name, columns=columns, where=where))

    def rename_column(self) -> Optional[Step]:
        """Renames a column that no view names."""
        table, column = self.pick((table, column) for table in self.schema.tables.values() for column in table.columns
                                  if not self.is_in_view(table.name, column.name)) or (None, None)
        if not table:
            return None
        old, new = column.name, self.name("c")
        column.name = new
        self.rename_in(table, old, new)
        renames = [{"oldColumnName": x, "newColumnName": y} for x, y in ((old, new), (new, old))]
        return Step(*([change("renameColumn", tableName=table.name, **names)] for names in renames))

    def rename_in(self, table: Table, old: str, new: str) -> None:
        """Renames a column in keys, indexes, foreign keys and rows."""
        def renamed(names: tuple[str, ...]) -> tuple[str, ...]:
            return tuple(new if name == old else name for name in names)

        for row in table.rows:
            row[new] = row.pop(old)
        if table.primary:
            table.primary = table.primary._replace(columns=renamed(table.primary.columns))
        table.uniques = [it._replace(columns=renamed(it.columns)) for it in table.uniques]
        table.indexes = [it._replace(columns=renamed(it.columns)) for it in table.indexes]
        table.foreign = [it._replace(columns=renamed(it.columns)) for it in table.foreign]
        for it in self.schema.tables.values():
            it.foreign = [key._replace(targets=renamed(key.targets)) if key.parent == table.name else key
                          for key in it.foreign]

    def not_null(self, kind: str, table: Table, column: Column, **more) -> dict:
        """addNotNullConstraint or dropNotNullConstraint."""
        kind_text = self.spelt(column.kind)
        return change(kind, tableName=table.name, columnName=column.name, columnDataType=kind_text, **more)

    def add_not_null(self) -> Optional[Step]:
        """Makes a column NOT NULL, with a value for its nulls where there are some."""
        table, column = self.pick((table, column) for table in self.schema.tables.values() for column in table.columns
                                  if column.nullable) or (None, None)
        if not table:
            return None
        empty = [row for row in table.rows if row[column.name] is None]
        if empty and (not table.primary or column.name in table.covered()):
            return None
        undo = [self.not_null("dropNotNullConstraint", table, column)]
        undo += [self.put_back(table, row, [column.name]) for row in empty]
        value = self.value(column.kind) if empty else None
        column.nullable = False
        self.forget_default(column)
        for row in empty:
            row[column.name] = value
        made = self.not_null("addNotNullConstraint", table, column, defaultNullValue=as_text(value))
        return Step([made], undo, not empty)

    def drop_not_null(self) -> Optional[Step]:
        """Lets a column be null that is in no key."""
        table, column = self.pick(
            (table, column) for table in self.schema.tables.values() for column in table.columns
            if not column.nullable and not (table.primary and column.name in table.primary.columns)) or (None, None)
        if not table:
            return None
        column.nullable = True
        self.forget_default(column)
        return Step([self.not_null("dropNotNullConstraint", table, column)],
                    [self.not_null("addNotNullConstraint", table, column)])

    def forget_default(self, column: Column) -> None:
        """In MySQL, MODIFY leaves a column no default."""
        if self.profile == MYSQL:
            column.default = None

    def set_default(self) -> Optional[Step]:
        """Gives a column a default, or another one."""
        table, column = self.pick((table, column) for table in self.schema.tables.values() for column in table.columns
                                  if not column.numbered) or (None, None)
        if not table:
            return None
        was = replace(column)
        undo = drop_default(table, was) if was.default is None else add_default(table, was)
        column.default = self.value(column.kind)
        return Step([add_default(table, column)], [undo], was.default is None)

    def unset_default(self) -> Optional[Step]:
        """Takes a column's default away."""
        table, column = self.pick((table, column) for table in self.schema.tables.values() for column in table.columns
                                  if column.default is not None) or (None, None)
        if not table:
            return None
        undo = add_default(table, column)
        column.default = None
        return Step([drop_default(table, column)], [undo], False)


def is_key_in_order(table: Table) -> bool:
    """The primary key has its columns in the table's order, as createTable makes it."""
    key = list(table.primary.columns) if table.primary else []
    return key == [name for name in table.names() if name in key]


def as_text(value: Value) -> Optional[str]:
    """A value as the text of a defaultNullValue."""
    if value is None or isinstance(value, str):
        return value
    return format(value, "f") if isinstance(value, Decimal) else str(int(value))


def add_default(table: Table, column: Column) -> dict:
    """The change that gives a column its default."""
    default = stated(column.default, "defaultValue")
    return change("addDefaultValue", tableName=table.name, columnName=column.name, **default)


def drop_default(table: Table, column: Column) -> dict:
    """The change that takes a column's default away."""
    return change("dropDefaultValue", tableName=table.name, columnName=column.name)


def add_unique(table: Table, key: Key) -> dict:
    """The change that makes a unique constraint."""
    columns = ", ".join(key.columns)
    return change("addUniqueConstraint", tableName=table.name, columnNames=columns, constraintName=key.name)


def create_index(table: Table, index: Index) -> dict:
    """The change that makes an index."""
    columns = [{"column": {"name": name}} for name in index.columns]
    unique = index.unique or None
    return change("createIndex", indexName=index.name, tableName=table.name, columns=columns, unique=unique)


def add_foreign_key(table: Table, key: ForeignKey) -> dict:
    """The change that makes a foreign key."""
    return change("addForeignKeyConstraint", constraintName=key.name, baseTableName=table.name,
                  baseColumnNames=", ".join(key.columns), referencedTableName=key.parent,
                  referencedColumnNames=", ".join(key.targets), onDelete="CASCADE" if key.cascade else None)
