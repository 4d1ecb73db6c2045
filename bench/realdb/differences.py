"""What cannot be the same: where our profile differs from a server by design.

Changelogs that are made keep clear of it. Each difference with an example is tried on both, so that the table says no
more than what is so.
"""
from __future__ import annotations

import json
import re
import subprocess
from pathlib import Path
from typing import NamedTuple, Optional

from .schema import MYSQL, POSTGRESQL
from .servers import Query, Server

ACCEPTED, REFUSED = "accepted", "refused"
BOTH = (POSTGRESQL, MYSQL)
PARENT = "CREATE TABLE p (id int PRIMARY KEY, n int)"
CHILD = "CREATE TABLE c (id int PRIMARY KEY, p int)"
KEY = "ALTER TABLE c ADD CONSTRAINT k FOREIGN KEY (p) REFERENCES p (id)"
VIEW = "CREATE VIEW v AS SELECT id FROM p"


class Difference(NamedTuple):
    """What differs and why; statements, and what becomes of the last one, or what a query for a count then answers."""

    profiles: tuple[str, ...]
    what: str
    reason: str
    statements: tuple[str, ...] = ()
    here: str = REFUSED
    there: str = ACCEPTED
    query: Optional[str] = None


DIFFERENCES = [
    Difference(BOTH, "starts and steps of sequences, the order of an index's columns, the default of an only column",
               "no question shows them"),
    Difference((MYSQL,), "a unique index and a unique constraint", "the server has one sort for both"),
    Difference((MYSQL,), "indexes that the server makes for foreign keys", "our foreign keys need none"),
    Difference((MYSQL,), "how texts are compared", "by their bytes here; there so in a binary collation alone"),
    Difference(BOTH, "a number with more decimals than its column", "too wide here, rounded there",
               ("CREATE TABLE t (d decimal(5, 2))", "INSERT INTO t VALUES (1.005)")),
    Difference(BOTH, "a number into a text", "wrong kind here, made a text there",
               ("CREATE TABLE t (v varchar(5))", "INSERT INTO t VALUES (5)")),
    Difference(BOTH, "blanks past the end of a varchar", "too wide here, cut off there",
               ("CREATE TABLE t (v varchar(1))", "INSERT INTO t VALUES ('a  ')")),
    Difference(BOTH, "other spellings of a moment", "three spellings here, many there",
               ("CREATE TABLE t (d {moment})", "INSERT INTO t VALUES ('2026-11-28 22:10')")),
    Difference(BOTH, "renaming a table that a view names", "depends here; followed there, or the view goes stale",
               (PARENT, VIEW, "ALTER TABLE p RENAME TO q")),
    Difference(BOTH, "renaming a column that a view names", "depends here; followed there, or the view goes stale",
               (PARENT, VIEW, "ALTER TABLE p RENAME COLUMN id TO i")),
    Difference(BOTH, "dropping a column of an index", "depends here, the index goes with it there",
               (PARENT, "CREATE INDEX x ON p (n)", "ALTER TABLE p DROP COLUMN n")),
    Difference(BOTH, "a foreign key at a unique index", "wants a key or a unique constraint here",
               (PARENT, CHILD, "CREATE UNIQUE INDEX x ON p (n)", KEY.replace("(id)", "(n)"))),
    Difference(BOTH, "the number after a refused INSERT", "a refused statement takes no number here, and one there",
               ("CREATE TABLE t (id int {numbered} PRIMARY KEY, n int NOT NULL UNIQUE)", "INSERT INTO t (n) VALUES (1)",
                "INSERT INTO t (n) VALUES (1)", "INSERT INTO t (n) VALUES (2)"),
               "1", "0", "SELECT COUNT(*) FROM t WHERE id = 2"),
    Difference((POSTGRESQL,), "a table in a schema that is not there", "a schema needs no statement here",
               ("CREATE TABLE nowhere.t (n int)",), ACCEPTED, REFUSED),
    Difference((POSTGRESQL,), "a sequence t_id_seq beside a table t with a numbered column id",
               "the server makes a sequence of this name for the column",
               ("CREATE TABLE t (id int {numbered} PRIMARY KEY)", "CREATE SEQUENCE t_id_seq START WITH 1 INCREMENT BY 1"),
               ACCEPTED, REFUSED),
    Difference((POSTGRESQL,), "a view replaced by one with other columns", "there all its columns have to stay",
               (PARENT, VIEW, "CREATE OR REPLACE VIEW v AS SELECT n FROM p"), ACCEPTED, REFUSED),
    Difference((POSTGRESQL,), "0 and 1 into a boolean", "as in MySQL here; a cast is wanted there",
               ("CREATE TABLE t (b boolean)", "INSERT INTO t VALUES (1)"), ACCEPTED, REFUSED),
    Difference((POSTGRESQL,), "a foreign key from int to bigint", "one kind here, kinds that compare there",
               (PARENT, "CREATE TABLE c (p bigint)", KEY)),
    Difference((POSTGRESQL,), "a default that its column can't hold", "refused when set here, when used there",
               ("CREATE TABLE t (v varchar(1) DEFAULT 'ab')",)),
    Difference((POSTGRESQL,), "a numbered column that is not the key", "as in MySQL here",
               ("CREATE TABLE t (id int {numbered}, n int)",)),
    Difference((MYSQL,), "dropping the only index of a foreign key's columns, also as the inverse of its creation",
               "our foreign keys need none; make the index first and the foreign key then",
               (PARENT, CHILD, KEY, "CREATE INDEX x ON c (p)", "DROP INDEX x ON c"), ACCEPTED, REFUSED),
    Difference((MYSQL,), "columns' names that differ in the case of letters", "compared exactly here, not so there",
               ("CREATE TABLE t (a int, A int)",), ACCEPTED, REFUSED),
    Difference((MYSQL,), "a text as a primary key", "no lengths of prefixes here, and none is needed",
               ("CREATE TABLE t (v text PRIMARY KEY)",), ACCEPTED, REFUSED),
    Difference((MYSQL,), "a primary key of more than 3,072 bytes", "no such limit here",
               ("CREATE TABLE t (v varchar(1000) PRIMARY KEY)",), ACCEPTED, REFUSED),
    Difference((MYSQL,), "rows of more than 65,535 bytes", "no such limit here",
               ("CREATE TABLE t (v varchar(10000), w varchar(10000))",), ACCEPTED, REFUSED),
    Difference((MYSQL,), "a number in a boolean", "false and true alone here, a number of one byte there",
               ("CREATE TABLE t (b boolean)", "INSERT INTO t VALUES (2)")),
    Difference((MYSQL,), "a truth value into a number", "wrong kind here, 0 or 1 there",
               ("CREATE TABLE t (n int)", "INSERT INTO t VALUES (TRUE)")),
    Difference((MYSQL,), "NULL into a numbered column", "null found here, the next number there",
               ("CREATE TABLE t (id int {numbered} PRIMARY KEY)", "INSERT INTO t VALUES (NULL)")),
    Difference((MYSQL,), "0 into a numbered column", "0 here, the next number there",
               ("CREATE TABLE t (id int {numbered} PRIMARY KEY)", "INSERT INTO t VALUES (0)"),
               "1", "0", "SELECT COUNT(*) FROM t WHERE id = 0"),
    Difference((MYSQL,), "a new NOT NULL column without a value where there are rows", "null found here, 0 or '' there",
               ("CREATE TABLE t (n int)", "INSERT INTO t VALUES (1)", "ALTER TABLE t ADD COLUMN m int NOT NULL")),
    Difference((MYSQL,), "NULL as the default of a NOT NULL column", "never taken here, refused there",
               ("CREATE TABLE t (n int DEFAULT NULL NOT NULL)",), ACCEPTED, REFUSED),
    Difference(BOTH, "two foreign keys on the same columns, the later one with a cascade",
               "all rows go, and are tested, at the statement's end here; each key in its turn there",
               (PARENT, CHILD, KEY, f"{KEY.replace(' k ', ' l ')} ON DELETE CASCADE", "INSERT INTO p VALUES (1, 1)",
                "INSERT INTO c VALUES (1, 1)", "DELETE FROM p"), ACCEPTED, REFUSED),
    Difference((MYSQL,), "deleting a parent and its child in one statement", "tested at its end here, row by row there",
               (CHILD, KEY.replace(" p (", " c ("), "INSERT INTO c VALUES (1, NULL)", "INSERT INTO c VALUES (2, 1)",
                "DELETE FROM c"), ACCEPTED, REFUSED),
    Difference((MYSQL,), "dropping a table that a view names", "depends here, the view goes stale there",
               (PARENT, VIEW, "DROP TABLE p")),
    Difference((MYSQL,), "comparing a text with a number", "wrong kind here, converted there",
               ("CREATE TABLE t (v varchar(5))", "DELETE FROM t WHERE v = 1")),
]
SPELT = {
    POSTGRESQL: {"{moment}": "timestamp", "{numbered}": "GENERATED BY DEFAULT AS IDENTITY"},
    MYSQL: {"{moment}": "datetime(3)", "{numbered}": "AUTO_INCREMENT"},
}


def spelt(profile: str, sql: str) -> str:
    """An example's statement in a profile's words."""
    for word, own in SPELT[profile].items():
        sql = sql.replace(word, own)
    return sql


def here(program: str, profile: str, difference: Difference, folder: Path) -> str:
    """What our engine makes of an example."""
    sets: list[dict] = [{"id": str(number), "changes": [{"sql": {"sql": spelt(profile, sql)}}]}
                        for number, sql in enumerate(difference.statements)]
    if difference.query:
        check = {"sqlCheck": {"expectedResult": difference.here, "sql": difference.query}}
        sets.append({"id": str(len(sets)), "preConditions": [{"onFail": "CONTINUE"}, check]})
    made = [{"changeSet": {"author": "trial", "failOnError": False, **it}} for it in sets]
    (folder / "example.json").write_text(json.dumps({"databaseChangeLog": made}), encoding="utf-8")
    words = [program, "update-sql", f"--url={profile}:example.db", "--changelog-file=example.json"]
    done = subprocess.run(words, cwd=folder, capture_output=True, encoding="utf-8", stdin=subprocess.DEVNULL,
                          check=False)
    if done.returncode:
        return f"status {done.returncode}, {done.stderr.strip()[-200:]}"
    ran = re.findall(r"^-- Changeset example\.json::(\d+)::trial$", done.stdout, re.M)
    is_run = str(len(sets) - 1) in ran
    if difference.query:
        return difference.here if is_run else "another count"
    if len(ran) < len(sets) - 1:
        return "an earlier statement refused"
    return ACCEPTED if is_run else REFUSED


def there(server: Server, difference: Difference) -> str:
    """What the server makes of an example."""
    server.make_schema()
    statements = [spelt(server.profile, sql) for sql in difference.statements]
    if difference.query:
        count = Query(["COUNT(*)"], difference.query.removeprefix("SELECT COUNT(*) "))
        return server.ask([*statements, count], lenient=True)[0][0][0]
    server.run("".join(f"{sql};\n" for sql in statements[:-1]))
    return ACCEPTED if server.accepts(statements[-1]) else REFUSED


def try_differences(program: str, server: Server, folder: Path) -> int:
    """Tries the examples, a line for each; how many are not as the table says."""
    folder.mkdir()
    wrong = 0
    for it in DIFFERENCES:
        if server.profile not in it.profiles:
            continue
        told = "not compared"
        if it.statements:
            answers = here(program, server.profile, it, folder), there(server, it)
            is_so = answers == (it.here, it.there)
            wrong += not is_so
            told = "as said" if is_so else f"NOT as said: {answers[0]} here, {answers[1]} there"
        print(f"{server.profile}, difference: {it.what} ({it.reason}): {told}", flush=True)
    return wrong
