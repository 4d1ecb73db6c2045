"""One changelog on a server and on our engine, there and back."""
from __future__ import annotations

import json
import re
import shutil
import subprocess
from dataclasses import dataclass, field
from pathlib import Path
from typing import Iterator, Optional

from . import catalogue
from .maker import Maker
from .questions import Apart, Questions, ask_names, ask_rows
from .rehearsal import Rehearsal
from .schema import MYSQL, POSTGRESQL, Schema
from .servers import Refused, Server

PATIENCE = 300  # seconds for one command
ALL = 1000000  # more changesets than any changelog has
RELEASES = ["1.0", "1.1", "2.0"]
# a text in quotes, or a name in quotes with its inside; what makes a foreign key
NAMES = {POSTGRESQL: r"""'(?:[^']|'')*'|"((?:[^"]|"")*)\"""", MYSQL: r"""'(?:[^'\\]|\\.|'')*'|`((?:[^`]|``)*)`"""}
MADE_KEY = {POSTGRESQL: r'CONSTRAINT "((?:[^"]|"")*)" FOREIGN KEY', MYSQL: r"CONSTRAINT `((?:[^`]|``)*)` FOREIGN KEY"}


class Failed(Exception):
    """A command did not do its work."""


@dataclass
class Case:
    """A changelog, the folder that the commands run in, and their further options."""

    name: str
    folder: Path
    changelog: str
    options: list[str] = field(default_factory=list)


def shop_cases(examples: Path, folder: Path) -> Iterator[Case]:
    """Each release of the shop in each format, with rows to try it with and without."""
    for release in RELEASES:
        for form in ("json", "yaml", "sql"):
            for context in ("demo", "prod"):
                place = folder / f"{form}-{release}-{context}"
                shutil.copytree(examples / "shop", place / "shop")
                for later in RELEASES[RELEASES.index(release) + 1:]:
                    (place / f"shop/sql/releases/{later}.sql").unlink()
                root = "shop/sql/changelog.yaml" if form == "sql" else f"shop/{form}/{release}.{form}"
                yield Case(f"shop {release} in {form}, {context}", place, root, [f"--context-filter={context}"])


def schemas_case(examples: Path, folder: Path) -> Case:
    """Tables of one name in two schemas, for postgresql alone."""
    place = folder / "schemas"
    shutil.copytree(examples / "schemas", place)
    return Case("schemas", place, "shops.yaml")


def made_cases(profile: str, first: int, count: int, folder: Path) -> Iterator[Case]:
    """So many changelogs that are made from numbers."""
    for number in range(first, first + count):
        place = folder / f"made-{number}"
        place.mkdir()
        text = json.dumps(Maker(profile, number).changelog(), indent=1, ensure_ascii=False)
        (place / "changelog.json").write_text(text, encoding="utf-8")
        yield Case(f"made from {number}", place, "changelog.json")


def names_in(pattern: str, text: str) -> set[str]:
    """The names that a text has in quotes, where the pattern finds them."""
    found = (match.group(1) for match in re.finditer(pattern, text, re.S))
    return {name.replace('""', '"').replace("``", "`") for name in found if name is not None}


class Trial:
    """What is done with one changelog."""

    def __init__(self, case: Case, server: Server, program: str):
        self.case = case
        self.server = server
        self.program = program
        self.profile = server.profile
        self.printed = ""
        self.back = ""
        self.differences: list[str] = []

    def command(self, word: str, *options: str, changelog: str = "") -> str:
        """Runs a command of our program, and gives what it prints."""
        words = [self.program, word, f"--url={self.profile}:trial.db",
                 f"--changelog-file={changelog or self.case.changelog}", *options]
        try:
            done = subprocess.run(words, cwd=self.case.folder, capture_output=True, encoding="utf-8", timeout=PATIENCE,
                                  stdin=subprocess.DEVNULL, check=False)
        except subprocess.TimeoutExpired:
            raise Failed(f"{word}: not done in {PATIENCE} seconds") from None
        if done.returncode:
            raise Failed(f"{word} {' '.join(options)}: status {done.returncode}, {done.stderr.strip()[-400:]}")
        return done.stdout

    def run(self) -> list[str]:
        """The changelog there, half way back, and all the way back; what differed."""
        try:
            self.printed = self.command("update-sql", *self.case.options)
            ran = len(re.findall("^ran ", self.command("update", *self.case.options), re.M))
            self.back = self.command("rollback-sql", f"--count={ALL}")
            self.compare("after the update", self.printed, False)
            half = self.command("rollback-sql", f"--count={ran // 2}")
            self.command("rollback-count", f"--count={ran // 2}")
            self.compare("half way back", self.printed + half)
            rest = self.command("rollback-sql", f"--count={ALL}")
            self.command("rollback-count", f"--count={ALL}")
            self.compare("all the way back", self.printed + half + rest, True)
        except Failed as failed:
            self.differences.append(str(failed))
        return self.differences

    def compare(self, stage: str, script: str, is_back: Optional[bool] = None) -> None:
        """Runs a script in a new schema of the server, and asks our engine for what is there then.

        Both have to have something left, or nothing where all is back, unless that is open.
        """
        try:
            self.server.make_schema()
            self.server.run(script)
            schema = catalogue.read(self.server, names_in(MADE_KEY[self.profile], self.printed + self.back))
            wrong = self.ask(schema)
        except Refused as refused:
            wrong = [f"the server refused: {refusal(str(refused), script)}"]
        if not wrong and is_back not in (None, schema.is_empty()):
            left = [str(name) for name in sorted([*schema.tables, *schema.views, *schema.sequences])]
            wrong = [f"both still have {', '.join(left)}" if left else "both have nothing"]
        self.differences += [f"{stage}: {it}" for it in wrong]

    def ask(self, schema: Schema) -> list[str]:
        """What our engine has otherwise than the schema of the server."""
        questions = Questions(self.profile)
        ask_names(questions, schema, names_in(NAMES[self.profile], self.printed + self.back))
        ask_rows(questions, schema)
        Rehearsal(self.profile, schema).ask(questions, self.server)
        first = questions.wrong(lambda file: self.command("update-sql", changelog=file), self.case.folder)
        apart = Questions(self.profile)
        Apart(apart, schema).ask()
        return first + apart.wrong(lambda file: self.command("update-sql", changelog=file), self.case.folder)


def refusal(text: str, script: str) -> str:
    """A client's message in one line, with the line of the script that it is about."""
    message = next((line for line in text.splitlines() if "ERROR" in line), text)
    place = re.search(r"line (\d+)|<stdin>:(\d+):", message)
    lines = script.splitlines()
    number = int(place.group(1) or place.group(2)) if place else 0
    return f"{message.strip()}: {lines[number - 1][:200]}" if 0 < number <= len(lines) else message.strip()
