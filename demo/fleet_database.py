"""A PostgreSQL server of Debian's package in a temporary folder, for demo/fleet: on a unix socket, crashed at will."""

import os
import pathlib
import random
import shutil
import signal
import subprocess
import time
from collections.abc import Sequence
from typing import Any, Optional

from world.box import Word

OWNER, DATABASE = "office", "postgres"
START_SECONDS = 60
PROGRAMS = sorted(pathlib.Path("/usr/lib/postgresql").glob("*/bin/postgres"), key=lambda path: int(path.parts[4]))


class Server:
    """The server; `name` is its DSN."""

    def __init__(self, folder: pathlib.Path, *options: str) -> None:
        self.folder, self.crashes = folder / "database", 0
        self.process: Optional[subprocess.Popen[bytes]] = None
        if not PROGRAMS:
            raise SystemExit("fleet: there is no PostgreSQL; tools/needs --install office installs it")
        self.folder.mkdir()
        # PostgreSQL refuses to run as root: then it runs as the user of Debian's package
        self.account: dict[str, Any] = {"user": "postgres", "group": "postgres",
                                        "extra_groups": []} if os.geteuid() == 0 else {}
        if self.account:
            shutil.chown(self.folder, "postgres", "postgres")
        self.name = self.dsn(DATABASE)
        program = PROGRAMS[-1].parent
        self.run([program / "initdb", "-D", self.folder / "data", "-A", "trust", "-U", OWNER, "--no-sync"])
        self.words: list[Word] = [program / "postgres", "-D", self.folder / "data", "-k", self.folder, "-c",
                                  "listen_addresses=", *options]

    def run(self, words: Sequence[Word]) -> None:
        done = subprocess.run(list(map(str, words)), cwd=self.folder, capture_output=True, text=True, check=False,
                              **self.account)
        if done.returncode != 0:
            raise SystemExit(f"fleet: {words[0]}: {done.stderr}")

    def dsn(self, database: str) -> str:
        return f"host={self.folder} dbname={database} user={OWNER}"

    def connect(self, database: str = DATABASE) -> Any:
        import psycopg2
        connection = psycopg2.connect(self.dsn(database), options="-c timezone=UTC")
        connection.autocommit = True
        return connection

    def start(self) -> None:
        import psycopg2
        with (self.folder / "log").open("ab") as log:
            self.process = subprocess.Popen(list(map(str, self.words)), cwd=self.folder, stdout=log, stderr=log,
                                            **self.account)
        for _ in range(START_SECONDS * 20):
            try:
                self.connect().close()
                return
            except psycopg2.OperationalError:
                time.sleep(0.05)
        raise SystemExit(f"fleet: the database doesn't start, see {self.folder / 'log'}")

    def crash(self, rng: random.Random) -> None:
        """Without a checkpoint: all processes end at once, or one is killed and the server recovers by itself."""
        self.crashes += 1
        if rng.random() < 0.5 and self.process:
            self.process.send_signal(signal.SIGQUIT)
            self.process.wait()
            self.start()
        else:
            self.kill_backend()

    def kill_backend(self) -> None:
        import psycopg2
        try:
            with self.connect().cursor() as cursor:
                cursor.execute("SELECT pid FROM pg_stat_activity WHERE backend_type = 'client backend'"
                               " ORDER BY pid = pg_backend_pid() LIMIT 1")
                os.kill(cursor.fetchone()[0], signal.SIGKILL)
        except (psycopg2.OperationalError, ProcessLookupError):
            pass  # it is recovering already, or that process has ended

    def stop(self) -> None:
        if self.process is not None and self.process.poll() is None:
            self.process.send_signal(signal.SIGINT)
            self.process.wait()
