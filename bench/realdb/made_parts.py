"""Changes of keys, constraints, indexes, views and sequences."""
from __future__ import annotations

from typing import Optional

from . import conditions
from .made_tables import Tables, add_foreign_key, add_unique, create_index
from .making import Step, change, placed_change
from .schema import MYSQL, POSTGRESQL, Column, ForeignKey, Index, Key, Name, Row, Table, View, listed, quoted


class Parts(Tables):
    """The changes that docs/CHANGES.md has under keys, constraints and indexes, and under views and sequences."""

    def some_columns(self, table: Table, most: int = 2) -> tuple[str, ...]:
        """One or more columns that an index may have; MySQL takes 3,072 bytes of a row into one."""
        keyable = [column.name for column in table.columns if self.is_keyable(column)]
        return tuple(self.random.sample(keyable, min(self.random.randint(1, most), len(keyable))))

    def place_for(self, most: int, unique: bool) -> Optional[tuple[Table, tuple[str, ...]]]:
        """A table and columns for an index, of which the rows are no twins where it is unique."""
        table = self.pick(self.schema.tables.values())
        columns = self.some_columns(table, most) if table else ()
        if not columns or unique and has_twins(table.rows, columns):
            return None
        return None if self.is_support(table, Index("", columns)) else (table, columns)

    def add_primary_key(self) -> Optional[Step]:
        """Gives a table its key, over columns that are not null."""
        table, columns = self.place_for(2, True) or (None, ())
        if not table or table.primary or any(table.column(name).nullable for name in columns):
            return None
        table.primary = Key(self.primary_name(table), columns)
        return Step([self.primary_key(table)], [self.no_primary_key(table)])

    def primary_key(self, table: Table) -> dict:
        """The change that makes a table's key."""
        name = table.primary.name if self.profile == POSTGRESQL else None
        columns = ", ".join(table.primary.columns)
        return change("addPrimaryKey", tableName=table.name, columnNames=columns, constraintName=name)

    def no_primary_key(self, table: Table) -> dict:
        """The change that drops a table's key."""
        return change("dropPrimaryKey", tableName=table.name,
                      constraintName=table.primary.name if self.profile == POSTGRESQL else None)

    def is_free(self, table: Table, part: Key | Index) -> bool:
        """No foreign key aims at the columns of a key, or needs it as its index."""
        aimed = {frozenset(key.targets) for key in self.targeting(table)}
        return frozenset(part.columns) not in aimed and not self.is_support(table, part)

    def drop_primary_key(self) -> Optional[Step]:
        """Drops a key that no foreign key needs and that is not of a numbered column."""
        table = self.pick(it for it in self.schema.tables.values() if it.primary and self.is_free(it, it.primary)
                          and not any(column.numbered for column in it.columns))
        if not table:
            return None
        step = Step([self.no_primary_key(table)], [self.primary_key(table)], False)
        table.primary = None
        return step

    def add_unique(self) -> Optional[Step]:
        """Makes a unique constraint."""
        table, columns = self.place_for(3, True) or (None, ())
        if not table:
            return None
        key = Key(self.name("uq", table.name.schema), columns)
        table.uniques.append(key)
        return Step([add_unique(table, key)],
                    [change("dropUniqueConstraint", tableName=table.name, constraintName=key.name)])

    def drop_unique(self) -> Optional[Step]:
        """Drops a unique constraint that no foreign key needs."""
        table, key = self.pick((table, key) for table in self.schema.tables.values() for key in table.uniques
                               if self.is_free(table, key)) or (None, None)
        if not table:
            return None
        table.uniques.remove(key)
        return Step([change("dropUniqueConstraint", tableName=table.name, constraintName=key.name)],
                    [add_unique(table, key)], False)

    def create_index(self) -> Optional[Step]:
        """Makes an index, at times a unique one."""
        unique = self.chance(0.3)
        table, columns = self.place_for(3, unique) or (None, ())
        if not table:
            return None
        index = Index(self.name("ix", table.name.schema), columns, unique)
        table.indexes.append(index)
        return Step([create_index(table, index)], [change("dropIndex", indexName=index.name, tableName=table.name)])

    def drop_index(self) -> Optional[Step]:
        """Drops an index."""
        table, index = self.pick((table, index) for table in self.schema.tables.values() for index in table.indexes
                                 if not self.is_support(table, index)) or (None, None)
        if not table:
            return None
        table.indexes.remove(index)
        return Step([change("dropIndex", indexName=index.name, tableName=table.name)],
                    [create_index(table, index)], False)

    def add_foreign_key(self) -> Optional[Step]:
        """Makes a foreign key, with or without a cascade, where all rows have their parents."""
        child = self.pick(self.schema.tables.values())
        parent, key = self.pick((parent, key) for parent in self.schema.tables.values() for key in parent.keys()
                                if child and self.may_aim(child, parent.name)) or (None, None)
        if not parent or len(child.columns) > 9:
            return None
        wanted = [parent.column(name) for name in key.columns]
        columns = self.like(child, wanted) or ()
        new = [] if columns else [Column(self.name("c"), column.kind) for column in wanted]
        key = ForeignKey(self.name("fk"), columns or tuple(it.name for it in new), parent.name, key.columns,
                         self.chance(0.5))
        if any((it.columns, it.parent) == (key.columns, key.parent) for it in child.foreign):
            return None
        if columns and not all(has_parent(row, key, parent.rows) for row in child.rows):
            return None
        made = self.put_columns(child, new) if new else []
        child.foreign.append(key)
        gone = [change("dropColumn", tableName=child.name, columnName=column.name) for column in reversed(new)]
        return Step(made + [add_foreign_key(child, key)],
                    [change("dropForeignKeyConstraint", baseTableName=child.name, constraintName=key.name)] + gone)

    def put_columns(self, table: Table, columns: list[Column]) -> list[dict]:
        """The change that gives a table columns that are null in all rows."""
        table.columns += columns
        for row in table.rows:
            row.update({column.name: None for column in columns})
        spelt = [self.column_json(table, column) for column in columns]
        return [change("addColumn", tableName=table.name, columns=spelt)]

    def like(self, table: Table, wanted: list[Column]) -> Optional[tuple[str, ...]]:
        """Columns of a table with these kinds, one for each."""
        found: list[str] = []
        for column in wanted:
            name = self.pick(it.name for it in table.columns
                             if it.kind == column.kind and not it.numbered and it.name not in found)
            if not name:
                return None
            found.append(name)
        return tuple(found)

    def drop_foreign_key(self) -> Optional[Step]:
        """Drops a foreign key."""
        table, key = self.pick((table, key) for table in self.schema.tables.values()
                               for key in table.foreign) or (None, None)
        if not table:
            return None
        table.foreign.remove(key)
        return Step([change("dropForeignKeyConstraint", baseTableName=table.name, constraintName=key.name)],
                    [add_foreign_key(table, key)], False)

    def query(self, table: Table, least: tuple[str, ...] = ()) -> tuple[str, frozenset[str]]:
        """A view's query of a table, whose columns begin with some, and all columns that it names."""
        names = least or tuple(self.random.sample(table.names(), self.random.randint(1, len(table.columns))))
        names += tuple(name for name in table.names() if least and name not in least and self.chance(0.3))
        is_all = not least and self.chance(0.2)
        query = f"SELECT {'*' if is_all else listed(self.profile, names)} FROM {quoted(self.profile, table.name)}"
        needs = frozenset(table.names() if is_all else names)
        if self.chance(0.5):
            test = conditions.made(self.random, self.profile, table, self.value)
            return f"{query} WHERE {test.sql}", needs | test.names
        return query, needs

    def create_view(self) -> Optional[Step]:
        """Makes a view."""
        table = self.pick(self.schema.tables.values())
        if not table:
            return None
        query, needs = self.query(table)
        view = View(self.placed("v"), [], table.name, needs, query)
        self.schema.views[view.name] = view
        return Step([self.view_made(view.name, query)], [self.view_gone(view.name)])

    def view_made(self, view: Name, query: str, **more) -> dict:
        """The change that makes a view, perhaps in the place of another."""
        word = "CREATE OR REPLACE VIEW" if more else "CREATE VIEW"
        return placed_change(view, f"{word} {quoted(self.profile, view)} AS {query}",
                             change("createView", viewName=view, selectQuery=query, **more))

    def view_gone(self, view: Name) -> dict:
        """The change that drops a view."""
        return placed_change(view, f"DROP VIEW {quoted(self.profile, view)}", change("dropView", viewName=view))

    def replace_view(self) -> Optional[Step]:
        """Puts another query in the place of a view's; PostgreSQL wants the columns that it has, and perhaps more."""
        view = self.pick(it for it in self.schema.views.values() if "*" not in it.query.split(" FROM ")[0])
        if not view:
            return None
        table, was = self.schema.tables[view.table], view.query
        first = tuple(name for name in table.names() if quoted(self.profile, name) in was.split(" FROM ")[0])
        first = tuple(sorted(first, key=lambda name: was.index(quoted(self.profile, name))))
        view.query, view.needs = self.query(table, first)
        undo = [self.view_gone(view.name), self.view_made(view.name, was)]
        return Step([self.view_made(view.name, view.query, replaceIfExists=True)], undo, False)

    def drop_view(self) -> Optional[Step]:
        """Drops a view, but not one of all columns whose table has got more since: made anew it would have those too."""
        view = self.pick(it for it in self.schema.views.values() if "*" not in it.query.split(" FROM ")[0]
                         or it.needs >= set(self.schema.tables[it.table].names()))
        if not view:
            return None
        del self.schema.views[view.name]
        return Step([self.view_gone(view.name)], [self.view_made(view.name, view.query)], False)

    def rename_view(self) -> Optional[Step]:
        """Renames a view."""
        view = self.pick(self.schema.views.values())
        if not view:
            return None
        old = view.name
        view.name = old._replace(text=self.name("v", old.schema))
        del self.schema.views[old]
        self.schema.views[view.name] = view
        return Step([self.view_renamed(old, view.name)], [self.view_renamed(view.name, old)])

    def view_renamed(self, old: Name, new: Name) -> dict:
        """The change that renames a view."""
        sql = f"ALTER VIEW {quoted(self.profile, old)} RENAME TO {quoted(self.profile, new.text)}"
        return placed_change(old, sql, change("renameView", oldViewName=old, newViewName=new))

    def change_sequence(self) -> Optional[Step]:
        """Makes, renames or drops a sequence; MySQL has none."""
        if self.profile == MYSQL:
            return None
        name = self.pick(self.sequences)
        if not name or self.chance(0.5):
            name = self.placed("s")
            self.sequences[name] = (self.random.randint(1, 1000), self.random.choice([1, 2, 10]))
            return Step([self.sequence(name)], [self.sequence_gone(name)])
        if self.chance(0.5):
            undo = self.sequence(name)
            del self.sequences[name]
            return Step([self.sequence_gone(name)], [undo], False)
        new = name._replace(text=self.name("s", name.schema))
        self.sequences[new] = self.sequences.pop(name)
        return Step([self.sequence_renamed(name, new)], [self.sequence_renamed(new, name)])

    def sequence(self, name: Name) -> dict:
        """The change that makes a sequence."""
        start, step = self.sequences[name]
        sql = f"CREATE SEQUENCE {quoted(self.profile, name)} START WITH {start} INCREMENT BY {step}"
        return placed_change(name, sql, change("createSequence", sequenceName=name, startValue=start, incrementBy=step))

    def sequence_gone(self, name: Name) -> dict:
        """The change that drops a sequence."""
        sql = f"DROP SEQUENCE {quoted(self.profile, name)}"
        return placed_change(name, sql, change("dropSequence", sequenceName=name))

    def sequence_renamed(self, old: Name, new: Name) -> dict:
        """The change that renames a sequence."""
        sql = f"ALTER SEQUENCE {quoted(self.profile, old)} RENAME TO {quoted(self.profile, new.text)}"
        return placed_change(old, sql, change("renameSequence", oldSequenceName=old, newSequenceName=new))


def has_twins(rows: list[Row], columns: tuple[str, ...]) -> bool:
    """Two rows are equal in these columns; a null is equal to nothing."""
    seen = [tuple(row[name] for name in columns) for row in rows]
    seen = [it for it in seen if None not in it]
    return len(seen) != len(set(seen))


def has_parent(row: Row, key: ForeignKey, parents: list[Row]) -> bool:
    """A row has the row that a foreign key wants, or a null there."""
    values = [row[name] for name in key.columns]
    return None in values or any(values == [it[name] for name in key.targets] for it in parents)
