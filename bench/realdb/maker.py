"""Changelogs that are made from a number: each change fits what the changes before it made, and can be taken back."""
from __future__ import annotations

from .made_rows import Rows
from .making import Step

WEIGHTS = {
    "create_table": 3, "drop_table": 1, "rename_table": 1, "add_column": 2, "drop_column": 1, "rename_column": 1,
    "add_not_null": 1, "drop_not_null": 1, "set_default": 1, "unset_default": 1, "add_primary_key": 2,
    "drop_primary_key": 1, "add_unique": 1, "drop_unique": 1, "create_index": 2, "drop_index": 1, "add_foreign_key": 3,
    "drop_foreign_key": 1, "create_view": 1, "replace_view": 1, "drop_view": 1, "rename_view": 1, "change_sequence": 1,
    "insert": 10, "update": 3, "delete": 2, "create_by_sql": 1, "nothing": 0.3,
}
FIRST = ["create_table", "create_table", "insert", "insert"]


class Maker(Rows):
    """Makes one changelog for one profile."""

    def step(self) -> Step:
        """A step of any sort that is possible now."""
        while True:
            method = self.random.choices(list(WEIGHTS), list(WEIGHTS.values()))[0]
            if method == "create_table" and len(self.schema.tables) >= 6:
                continue
            step = getattr(self, method)()
            if step:
                return step

    def change_set(self, number: int, steps: list[Step]) -> dict:
        """A changeset of steps; with a rollback block where generated inverses fall short, and at times elsewhere.

        SQL has none.
        """
        made = {"id": str(number), "author": "maker", "changes": [it for step in steps for it in step.changes]}
        if self.chance(0.1):
            made["runInTransaction"] = False
        is_sql = any("sql" in it for it in made["changes"])
        if is_sql or not all(step.generated for step in steps) or self.chance(0.15):
            made["rollback"] = [it for step in reversed(steps) for it in step.undo]
        return {"changeSet": made}

    def changelog(self) -> dict:
        """The changelog: tables and rows first, then anything."""
        first = [step for step in (getattr(self, method)() for method in FIRST) if step]
        sets = [self.change_set(1, first)]
        for number in range(2, self.random.randint(10, 30)):
            steps = [self.step() for _ in range(self.random.choice([1, 1, 1, 2, 3]))]
            sets.append(self.change_set(number, steps))
            if self.chance(0.05):
                sets[-1]["changeSet"]["changes"].append({"tagDatabase": {"tag": f"tag {number}"}})
        return {"databaseChangeLog": sets}
