"""The office's connection to its database (psycopg2): rows come with their columns by name, and go in by thousands."""

import contextlib
from typing import Any, Dict, Iterable, Iterator, List, Optional, Sequence, Tuple, TypeVar

import psycopg2
import psycopg2.extensions
import psycopg2.extras

Cursor = Any  # psycopg2's, which has no types
Row = Any  # a tuple whose fields have the names of the query's columns
Key = TypeVar("Key")
It = TypeVar("It")

# A visit whose machine is gone holds its lock for at most IDLE_RUNS runs at the box and GRACE seconds; another one
# waits for it a little longer.
IDLE_RUNS, GRACE = 3, 60
ROWS_A_STATEMENT = 1000
LONGEST = 300  # characters of what is told of a text


class Database:
    """A connection to the database, made anew where it was lost; a process has one for all its visits."""

    def __init__(self, name: str, timeout: float) -> None:
        self.name, idle = name, int(IDLE_RUNS * timeout) + GRACE
        self.connection: Optional[psycopg2.extensions.connection] = None
        # Compiling a plan (jit) takes seconds, and each of these statements runs for less
        self.options = (f"-c timezone=UTC -c jit=off -c idle_in_transaction_session_timeout={idle}s"
                        f" -c lock_timeout={idle + GRACE}s")

    @contextlib.contextmanager
    def transaction(self) -> Iterator[Cursor]:
        if self.connection is None or self.connection.closed:
            self.connection = psycopg2.connect(self.name, options=self.options,
                                               cursor_factory=psycopg2.extras.NamedTupleCursor)
        with self.connection, self.connection.cursor() as cursor:
            yield cursor

    def close(self) -> None:
        if self.connection is not None:
            self.connection.close()


def rows_of(cursor: Cursor, query: str, *values: Any, **named: Any) -> List[Row]:
    cursor.execute(query, named or values or None)
    return list(cursor.fetchall())


def row_of(cursor: Cursor, query: str, *values: Any, **named: Any) -> Optional[Row]:
    """The first row of a query, or None."""
    return next(iter(rows_of(cursor, query, *values, **named)), None)


def value_of(cursor: Cursor, query: str, *values: Any, **named: Any) -> Any:
    """The first column of a query's first row; None where there is no row."""
    row = row_of(cursor, query, *values, **named)
    return None if row is None else row[0]


def column_of(cursor: Cursor, query: str, *values: Any, **named: Any) -> List[Any]:
    return [row[0] for row in rows_of(cursor, query, *values, **named)]


def grouped(pairs: Iterable[Tuple[Key, It]]) -> Dict[Key, List[It]]:
    """The values of each key, in their order."""
    found: Dict[Key, List[It]] = {}
    for key, it in pairs:
        found.setdefault(key, []).append(it)
    return found


def insert(cursor: Cursor, into: str, found: Sequence[Sequence[Any]], conflict: str = "") -> None:
    if found:
        psycopg2.extras.execute_values(cursor, f"INSERT INTO {into} VALUES %s {conflict}", found,
                                       page_size=ROWS_A_STATEMENT)


def plain(text: object, longest: int = LONGEST) -> str:
    """A text of people or boxes as a column can hold it and a terminal can show it: in one line, without control and
    direction characters."""
    letters = " ".join(str(text).split())
    return "".join(it if it.isprintable() else "\N{REPLACEMENT CHARACTER}" for it in letters)[:longest]
