"""A real PostgreSQL and a real MariaDB: started in a folder of their own, asked by their own clients, stopped."""
from __future__ import annotations

import contextlib
import glob
import os
import shutil
import signal
import socket
import subprocess
import time
from pathlib import Path
from typing import Iterator, NamedTuple, Optional, Union

from .schema import MYSQL, POSTGRESQL, SCHEMAS, quoted

DATABASE = "trial"  # in MariaDB
PATIENCE = 120  # seconds for one call of a client, and for a server to come up or go down


class Missing(Exception):
    """Programs that are not installed."""


class Refused(Exception):
    """The server refused a statement, or could not be asked."""


class Query(NamedTuple):
    """Expressions and what follows them from FROM on; its answer has a text or None for each expression."""

    fields: list[str]
    rest: str


Part = Union[str, Query]
Answer = list[list[Optional[str]]]


class Server:
    """What both servers have in common: a process on a free port, and a client that runs scripts."""

    profile: str
    title: str
    package: str
    account: str  # who runs the server where the caller is root
    programs: list[str]
    places = ["/usr/sbin"]  # where Debian puts programs besides PATH
    stop_signal = signal.SIGTERM

    def __init__(self, folder: Path):
        self.folder = folder
        self.port = free_port()
        self.process: Optional[subprocess.Popen] = None

    @classmethod
    def program(cls, name: str) -> Optional[str]:
        """The path of a program of this server."""
        path = os.pathsep.join([os.environ.get("PATH", os.defpath), *cls.places])
        return shutil.which(name, path=path)

    @classmethod
    def is_installed(cls) -> bool:
        """All its programs are there."""
        return all(cls.program(name) for name in cls.programs)

    def as_account(self) -> dict:
        """The arguments of subprocess for a program that may not run as root."""
        account = {"user": self.account, "group": self.account, "extra_groups": []} if os.geteuid() == 0 else {}
        return {"cwd": self.folder, "stdin": subprocess.DEVNULL, **account}

    def start(self) -> None:
        """Makes the data's folder, starts the server and waits until it answers."""
        self.folder.mkdir(mode=0o700)
        if os.geteuid() == 0:
            shutil.chown(self.folder, self.account, self.account)
        with open(self.folder / "log", "wb") as log:
            subprocess.run(self.making(), stdout=log, stderr=log, check=True, **self.as_account())
            self.process = subprocess.Popen(self.starting(), stdout=log, stderr=log, **self.as_account())
        end = time.monotonic() + PATIENCE
        while not self.answers():
            if self.process.poll() is not None or time.monotonic() > end:
                told = (self.folder / "log").read_text(errors="replace")[-2000:]
                raise Refused(f"{self.title} did not start: {told}")
            time.sleep(0.2)

    def stop(self) -> None:
        """Stops the server and waits until it is gone."""
        if self.process is None:
            return
        self.process.send_signal(self.stop_signal)
        try:
            self.process.wait(PATIENCE)
        except subprocess.TimeoutExpired:
            self.process.kill()
            self.process.wait()

    def answers(self) -> bool:
        """The server can be asked."""
        with contextlib.suppress(Refused):
            self.ask([Query(["1"], "")], in_schema=False)
            return True
        return False

    def version(self) -> str:
        """What the server says it is."""
        return self.ask([Query(["version()"], "")], in_schema=False)[0][0][0].split(" on ")[0]

    def run(self, script: str, lenient: bool = False, in_schema: bool = True) -> str:
        """Runs a script and gives what it prints; the first refusal ends it, or is passed over."""
        try:
            done = subprocess.run(self.client(lenient, in_schema), input=script.encode(), capture_output=True,
                                  timeout=PATIENCE, check=False)
        except subprocess.TimeoutExpired:
            raise Refused(f"not done in {PATIENCE} seconds") from None
        if done.returncode and not lenient:
            raise Refused(done.stderr.decode(errors="replace").strip())
        return done.stdout.decode()

    def ask(self, parts: list[Part], lenient: bool = False, in_schema: bool = True) -> list[Answer]:
        """Runs statements and queries in one session; the answers of the queries in their order."""
        script, answers = [], []
        for part in parts:
            if isinstance(part, Query):
                script.append(f"SELECT {self.packed(len(answers), part.fields)} {part.rest};\n")
                answers.append([])
            else:
                script.append(part + ";\n")
        for line in self.run("".join(script), lenient, in_schema).splitlines():
            number, fields = line.split(":")
            answers[int(number)].append([None if it == "-" else bytes.fromhex(it).decode() for it in fields.split(",")])
        return answers

    def accepts(self, statement: str) -> bool:
        """Runs a statement, and tells whether it was accepted."""
        try:
            self.run(statement + ";")
        except Refused:
            return False
        return True

    def making(self) -> list[str]:
        """The command that makes the data's folder."""
        raise NotImplementedError

    def starting(self) -> list[str]:
        """The command that is the server."""
        raise NotImplementedError

    def client(self, lenient: bool, in_schema: bool) -> list[str]:
        """The command that runs a script."""
        raise NotImplementedError

    def packed(self, number: int, fields: list[str]) -> str:
        """An expression for `number:field,field`, each field in hexadecimal digits, or `-` for null."""
        raise NotImplementedError

    def make_schema(self) -> None:
        """Puts an empty schema in the place of the one that was."""
        raise NotImplementedError


class Postgres(Server):
    """PostgreSQL; the schemas are there before a changelog runs, and others than those of SCHEMAS are not."""

    profile, title, package, account = POSTGRESQL, "PostgreSQL", "postgresql", "postgres"
    programs = ["psql", "initdb", "postgres"]
    places = sorted(glob.glob("/usr/lib/postgresql/*/bin"), reverse=True)
    stop_signal = signal.SIGINT  # does not wait for clients

    def making(self) -> list[str]:
        return [self.program("initdb"), "--pgdata=data", "--username=trial", "--auth=trust", "--locale=C",
                "--encoding=UTF8", "--no-sync"]

    def starting(self) -> list[str]:
        return [self.program("postgres"), "-D", "data", "-p", str(self.port), "-c", "listen_addresses=127.0.0.1",
                "-c", "unix_socket_directories=", "-c", "fsync=off", "-c", "shared_buffers=32MB"]

    def client(self, lenient: bool, in_schema: bool) -> list[str]:
        errors = "ON_ERROR_ROLLBACK=on" if lenient else "ON_ERROR_STOP=on"
        return [self.program("psql"), "--no-psqlrc", "--quiet", "--no-align", "--tuples-only", "--host=127.0.0.1",
                f"--port={self.port}", "--username=trial", "--dbname=postgres", f"--set={errors}", "--file=-"]

    def packed(self, number: int, fields: list[str]) -> str:
        parts = (f"coalesce(encode(convert_to(({field})::text, 'UTF8'), 'hex'), '-')" for field in fields)
        return f"'{number}:' || " + " || ',' || ".join(parts)

    def make_schema(self) -> None:
        names = [quoted(POSTGRESQL, name) for name in SCHEMAS]
        made = "".join(f"DROP SCHEMA IF EXISTS {name} CASCADE; CREATE SCHEMA {name}; " for name in names)
        self.run("SET client_min_messages = warning; " + made)


class MariaDb(Server):
    """MariaDB; the schema is the database `trial`, in which texts are compared by their bytes."""

    profile, title, package, account = MYSQL, "MariaDB", "mariadb-server", "mysql"
    programs = ["mariadb", "mariadb-install-db", "mariadbd"]

    def making(self) -> list[str]:
        return [self.program("mariadb-install-db"), "--no-defaults", f"--datadir={self.folder}/data",
                "--auth-root-authentication-method=normal", "--skip-test-db"]

    def starting(self) -> list[str]:
        return [self.program("mariadbd"), "--no-defaults", f"--datadir={self.folder}/data", f"--port={self.port}",
                "--bind-address=127.0.0.1", f"--socket={self.folder}/socket", f"--pid-file={self.folder}/pid",
                "--character-set-server=utf8mb4", "--collation-server=utf8mb4_nopad_bin",
                "--innodb-flush-log-at-trx-commit=0", "--innodb-flush-method=nosync", "--innodb-buffer-pool-size=64M"]

    def client(self, lenient: bool, in_schema: bool) -> list[str]:
        words = [self.program("mariadb"), "--no-defaults", "--protocol=tcp", "--host=127.0.0.1", f"--port={self.port}",
                 "--user=root", "--batch", "--skip-column-names", "--default-character-set=utf8mb4"]
        return words + ["--force"] * lenient + [DATABASE] * in_schema

    def packed(self, number: int, fields: list[str]) -> str:
        parts = (f"COALESCE(HEX(CAST({field} AS CHAR)), '-')" for field in fields)
        return f"CONCAT('{number}:', " + ", ',', ".join(parts) + ")"

    def make_schema(self) -> None:
        self.run(f"DROP DATABASE IF EXISTS {DATABASE}; CREATE DATABASE {DATABASE};", in_schema=False)


def free_port() -> int:
    """A port of this machine that nothing listens on."""
    with socket.socket() as it:
        it.bind(("127.0.0.1", 0))
        return it.getsockname()[1]


def check_installed(kinds: list[type[Server]]) -> None:
    """Raises Missing with the packages that are not installed."""
    packages = [kind.package for kind in kinds if not kind.is_installed()]
    if packages:
        raise Missing("install the Debian packages " + " ".join(packages))


@contextlib.contextmanager
def running(kind: type[Server], folder: Path) -> Iterator[Server]:
    """A server that is up within the block, and stopped after it."""
    server = kind(folder)
    try:
        server.start()
        yield server
    finally:
        server.stop()
