"""A visit to a box: its orders are sent exactly once, and its readings stored exactly once.

Whoever talks to a box holds the lock of its row in `boxes`. What a kill, a lost link or a lost database leaves is in
the tables: the next visit goes on from there.
"""

import contextlib
import enum
import random
import re
import time
from typing import Callable, Iterator, List, NamedTuple, Optional, Tuple, TypeVar

import psycopg2

from box_commands import change_of
from database import Cursor, Database, insert, row_of, rows_of, value_of
from decoding import Undecoded
from link import PAGE, Command, Disagreement, Link, Meter, Reading, Seen, Unreached
from storing import Window, store_readings, stored

LONGEST_PAUSE = 60  # seconds between two tries
PAGES = 100  # of a collection of a box
REFUSALS = ("SYNTAX", "KNOWN", "UNKNOWN", "ADDRESS", "FULL")  # of an order; its number is used again
NO_BOX = "there is no such box in the database"
PENDING, QUEUED = "state = 'pending'", "state = 'queued'"
IS_OPEN = "state IN ('pending', 'queued')"  # in the words of the index open_orders
IT_WAS = "line = %s AND (state = 'queued' OR state IN ('pending', 'refused') AND number = %s)"
TRANSIENT = (Unreached, Undecoded, psycopg2.Error)  # a lost database is any psycopg2.Error
# What a command that the box can't have done is to the database, which doesn't take it
IMPOSSIBLE = (Disagreement, psycopg2.IntegrityError, psycopg2.DataError, psycopg2.InternalError)
LAST_SERIAL = 2**63 - 1
KNOWN = "SELECT command, identity, number, confirmed FROM boxes WHERE name = %s FOR NO KEY UPDATE"
STANDING = "SELECT number, confirmed FROM boxes WHERE name = %s"
ORDERS = "SELECT id, line, confirms, number, state, answer FROM orders WHERE box = %s AND "
QUEUE = "INSERT INTO orders (box, key, line) VALUES (%s, %s, %s) ON CONFLICT (box, key) DO NOTHING"
CONFIRM = ("INSERT INTO orders (box, line, confirms, number, state) VALUES (%s, %s, %s, %s, 'pending')" " RETURNING id")
NUMBER = "UPDATE orders SET state = 'pending', number = %s, answer = NULL WHERE id = %s"
END = "UPDATE orders SET state = %s, answer = %s, ended_at = now() WHERE id = %s"

Result = TypeVar("Result")


class State(str, enum.Enum):
    """Of an order (`order_state` of the database)."""
    QUEUED = "queued"  # not sent yet
    PENDING = "pending"  # has its number, and may have been sent
    DONE = "done"
    REFUSED = "refused"  # its number is used again
    GIVEN_UP = "given_up"  # nobody knows whether it was done


class Order(NamedTuple):
    """A row of `orders`."""
    id: int
    line: str
    confirms: Optional[int]
    number: Optional[int]
    state: State
    answer: Optional[str]


# A box's state: the number of its last command, and the serial up to which it has confirmed
Standing = NamedTuple("Standing", [("number", int), ("confirmed", int)])


class Visit:
    """Talks to one box. Each method that ends in a commit can be called again after any failure."""

    def __init__(self, database: Database, box: str, timeout: float) -> None:
        self.database, self.box, self.timeout = database, box, timeout
        # whether this visit saw the box as the database knows it, since then no order was refused; the order that it
        # numbered; the readings that it stored
        self.is_checked, self.stored_count = False, 0
        self.own: Optional[int] = None

    @contextlib.contextmanager
    def locked(self) -> Iterator[Tuple[Cursor, Link, Optional[Standing]]]:
        """A transaction that holds the lock of the box's row: cursor, link, and what is known (None: never reached)."""
        with self.database.transaction() as cursor:
            row = row_of(cursor, KNOWN, self.box)
            if row is None:
                raise Disagreement(NO_BOX)
            link = Link(self.box, row.command, self.timeout, row.identity)
            yield cursor, link, None if row.number is None else Standing(row.number, row.confirmed)

    def retried(self, work: Callable[[], Result], tries: int, pause: float) -> Result:
        """What `work` returns; after a transient failure it is done again, later and later."""
        for attempt in range(tries):
            try:
                return work()
            except TRANSIENT as fault:
                self.is_checked, self.own = False, None  # nothing is taken from before
                if isinstance(fault, psycopg2.Error):
                    self.database.close()
                if attempt == tries - 1:
                    raise
                time.sleep(min(LONGEST_PAUSE, pause * 2 ** attempt) * random.uniform(0.5, 1))
        raise AssertionError("no try")

    # ---- orders

    def queue(self, lines: List[str], key: str) -> List[int]:
        """Puts orders into the table, each once for the key and its place; returns their ids."""
        with self.database.transaction() as cursor:  # its lock isn't needed: it may be held for long
            if row_of(cursor, "SELECT FROM boxes WHERE name = %s", self.box) is None:
                raise Disagreement(NO_BOX)
            return [self.queue_one(cursor, line, f"{key}.{place}") for place, line in enumerate(lines, 1)]

    def queue_one(self, cursor: Cursor, line: str, key: str) -> int:
        cursor.execute(QUEUE, (self.box, key, line))
        order = self.order(cursor, "key = %s", key)
        assert order is not None
        if order.line != line:
            raise Disagreement(f"the key {key} is that of another order: {order.line}")
        return order.id

    def orders(self, cursor: Cursor, where: str, *values: object) -> List[Order]:
        """The orders of the box of which that is so."""
        found = rows_of(cursor, ORDERS + where, self.box, *values)
        return [Order(*row)._replace(state=State(row.state)) for row in found]

    def order(self, cursor: Cursor, where: str, *values: object) -> Optional[Order]:
        """The first one, or None."""
        return next(iter(self.orders(cursor, f"{where} ORDER BY id LIMIT 1", *values)), None)

    def settle(self) -> None:
        """Sends the pending order again, and then one queued order after the other."""
        while self.has_open_orders():
            order_id = self.numbered()
            if order_id is not None:
                self.send(order_id)

    def has_open_orders(self) -> bool:
        with self.database.transaction() as cursor:
            return self.order(cursor, IS_OPEN) is not None

    def numbered(self) -> Optional[int]:
        """The id of the order to be sent: the pending one, or the first queued one, which gets its number here."""
        with self.locked() as (cursor, link, known):
            first = self.order(cursor, PENDING) or self.order(cursor, QUEUED)
            if first is None or first.state is State.PENDING:
                return first.id if first else None
            if not self.is_checked or known is None:
                known, _ = self.look(cursor, link, known)
                first = self.order(cursor, QUEUED)  # (the box may have done it)
                if first is None:
                    return None
            cursor.execute(NUMBER, (known.number + 1, first.id))  # which is committed before it is sent
            self.is_checked, self.own = True, first.id
            return first.id

    def send(self, order_id: int) -> None:
        """Sends a pending order, word for word as it stands in the table, and notes the answer."""
        with self.locked() as (cursor, link, known):
            order = self.order(cursor, f"{PENDING} AND id = %s", order_id)
            if order is None:
                return  # another visit has sent it
            if order.id != self.own and not self.is_to_be_sent(cursor, link, known, order):
                return
            self.own = None
            self.note(cursor, link, order, link.run([f"{order.number} {order.line}"])[0][-1])

    def is_to_be_sent(self, cursor: Cursor, link: Link, known: Optional[Standing], order: Order) -> bool:
        """Checks an order that another visit left pending. It was done, or the box is as the database knows it, and
        still shows what a CONFIRM confirms. False where a refused order took its number. Raises Disagreement."""
        if known is None or order.number is None:
            raise Disagreement(f"order {order.number} is pending, and the database doesn't know the box's last number")
        seen = link.look(known.confirmed + 1)
        if self.caught_up(cursor, link, known, seen) != known:
            return False
        if seen.number == order.number:  # it was done, if that was its line: the box compares it
            if self.took_its_number(cursor, link, order):
                return False
            self.check_state(cursor, Standing(order.number, order.confirms or known.confirmed), seen,
                             order.confirms is not None)
            return True
        self.check_state(cursor, known, seen)
        if order.confirms is not None:
            shown = {reading.serial: reading for reading in seen.readings if reading.serial <= order.confirms}
            if stored(cursor, self.box, known.confirmed + 1, order.confirms) != shown:
                raise Disagreement(f"the box doesn't show the readings that order {order.number} {order.line} confirms")
        return True

    def note(self, cursor: Cursor, link: Link, order: Order, answer: str) -> None:
        """Notes the answer to an order. Raises Disagreement where it is none that the box in the database can give."""
        refused = re.fullmatch(r"ERR (\w+)", answer)
        if answer == f"OK {order.number}":
            self.note_done(cursor, order)
        elif refused and refused[1] in REFUSALS and order.confirms is None:
            self.is_checked = False  # the number is given again only after another look
            self.end(cursor, order.id, State.REFUSED, answer)
        elif answer != f"ERR ORDER {order.number}" or not self.took_its_number(cursor, link, order):
            raise Disagreement(f"order {order.number} {order.line} was answered {answer}")

    def note_done(self, cursor: Cursor, order: Order) -> None:
        """What an order that is done changes.

        Raises Disagreement where this office doesn't know the command: a newer one put it into the table."""
        cursor.execute("UPDATE boxes SET number = %s, confirmed = coalesce(%s, confirmed) WHERE name = %s",
                       (order.number, order.confirms, self.box))
        if order.confirms is None:
            change = change_of(self.box, order.line)
            if change is None:
                raise Disagreement(f"order {order.number} {order.line} is none that this office knows")
            cursor.execute(*change)
        self.end(cursor, order.id, State.DONE, f"OK {order.number}")

    def end(self, cursor: Cursor, order_id: int, state: State, answer: str) -> None:
        cursor.execute(END, (state.value, answer, order_id))

    # ---- a refused order that was done later: a copy of it was on its way, and the box could do it then

    def took_its_number(self, cursor: Cursor, link: Link, order: Order) -> bool:
        """Whether the box did a refused order under the number of a pending one.
        Then the pending one is queued again, or, of a CONFIRM, given up: the next page makes another."""
        late = self.done_late(cursor, link, order.number)
        if late is None:
            return False
        self.give_back(cursor, order)
        self.note_done(cursor, late)
        self.is_checked = False
        return True

    def give_back(self, cursor: Cursor, order: Order) -> None:
        """Takes the number of a pending order, which the box has given to another."""
        if order.confirms is None:
            cursor.execute("UPDATE orders SET state = 'queued', number = NULL WHERE id = %s", (order.id,))
        else:
            self.end(cursor, order.id, State.GIVEN_UP, "another order took its number")

    def done_late(self, cursor: Cursor, link: Link, number: Optional[int]) -> Optional[Order]:
        """The refused order that the box did as its last one, of that number, or None. The box says which: it answers
        the line of its last number OK again, and any other line of that number ERR ORDER."""
        refused = self.orders(cursor, "state = 'refused' AND number = %s ORDER BY id DESC", number)
        return next((it for it in refused if link.run([f"{number} {it.line}"])[0][-1] == f"OK {number}"), None)

    # ---- what was done at the box itself, as its journal has it

    def caught_up(self, cursor: Cursor, link: Link, known: Standing, seen: Seen) -> Standing:
        """Does the commands that the box has done besides to the register that is known; returns what is known then.
        It is believed only where they end in the box's number, in its last line, which the box compares, and in its
        register, equal in each row. Else nothing is changed, and `known` is returned: the caller compares, and stops.
        """
        if seen.number <= known.number:
            return known
        commands = link.commands(known.number + 1, seen.number)
        if [it.number for it in commands] != list(range(known.number + 1, seen.number + 1)):
            return known
        cursor.execute("SAVEPOINT journal")
        try:
            self.replay(cursor, link, commands)
            standing = Standing(*rows_of(cursor, STANDING, self.box)[0])
            self.check_state(cursor, standing, seen)
        except IMPOSSIBLE:
            cursor.execute("ROLLBACK TO SAVEPOINT journal")
            return known
        return standing

    def replay(self, cursor: Cursor, link: Link, commands: List[Command]) -> None:
        """Notes that the box has done these commands: each as the order that it was, or else as one that is done.

        Raises Disagreement where the last one isn't the box's last, and at a CONFIRM that no order was."""
        if link.run([" ".join(map(str, commands[-1]))])[0][-1] != f"OK {commands[-1].number}":
            raise Disagreement("the journal's last line isn't the box's")
        pending = self.order(cursor, PENDING)
        if pending is not None and Command(pending.number or 0, pending.line) not in commands:
            self.give_back(cursor, pending)
        for number, line in commands:
            order = self.order(cursor, IT_WAS, line, number)
            if order is not None:
                cursor.execute(NUMBER, (number, order.id))
            else:
                cursor.execute("INSERT INTO orders (box, line, number, state) VALUES (%s, %s, %s, 'pending')",
                               (self.box, line, number))
            done = self.order(cursor, PENDING)
            assert done is not None
            self.note_done(cursor, done)

    # ---- the box's state

    def look(self, cursor: Cursor, link: Link, known: Optional[Standing]) -> Tuple[Standing, Seen]:
        """What is known, and what the box shows; at the first contact the box says where its numbers go on.

        Raises Disagreement where it isn't as the database knows it."""
        if known is None:
            return self.first_look(cursor, link)
        seen, standing = link.look(known.confirmed + 1), known
        late = self.done_late(cursor, link, seen.number) if seen.number == known.number + 1 else None
        if late is not None:
            self.note_done(cursor, late)
            standing = Standing(seen.number, known.confirmed)
        standing = self.caught_up(cursor, link, standing, seen)
        self.check_state(cursor, standing, seen)
        self.keep_identity(cursor, seen)
        return standing, seen

    def first_look(self, cursor: Cursor, link: Link) -> Tuple[Standing, Seen]:
        seen = link.look(1)
        cursor.execute("SELECT meet_box(%s, %s, %s)", (self.box, seen.number, seen.confirmed))
        cursor.execute("DELETE FROM meters WHERE box = %s", (self.box,))
        insert(cursor, "meters (box, identity, line, address, flat)", [(self.box, *meter) for meter in seen.meters])
        cursor.execute("SELECT find_last_readings(%s)", (self.box,))
        self.keep_identity(cursor, seen)
        return Standing(seen.number, seen.confirmed), seen

    def keep_identity(self, cursor: Cursor, seen: Seen) -> None:
        """Notes which box it is, where that isn't known yet. Raises Disagreement where another name has it."""
        other = value_of(cursor, "SELECT name FROM boxes WHERE identity = %s AND name <> %s AND active", seen.identity,
                         self.box)
        if other is not None:
            raise Disagreement(f"the box of {other} answers")
        cursor.execute("UPDATE boxes SET identity = %s WHERE name = %s AND identity IS NULL", (seen.identity, self.box))

    def check_state(self, cursor: Cursor, known: Standing, seen: Seen, has_register: bool = True) -> None:
        """Raises Disagreement where the box's last number, confirmed serial or register is another one."""
        if seen.number != known.number:
            raise Disagreement(f"the box's last order is {seen.number}, the database's {known.number}")
        if seen.confirmed != known.confirmed:
            raise Disagreement(f"the box has confirmed up to {seen.confirmed}, the database up to {known.confirmed}")
        meters = rows_of(cursor, "SELECT identity, line, address, flat FROM meters WHERE box = %s", self.box)
        differing = {Meter(*row) for row in meters} ^ set(seen.meters)
        if has_register and differing:
            raise Disagreement(f"the box has another register than the database, {len(differing)} rows differ,"
                               f" the first {' '.join(map(str, min(differing)))}")

    # ---- readings

    def collect(self, pages: int = PAGES) -> int:
        """Stores what the box shows, at most so many pages, and confirms it; returns the serial up to which it has."""
        for _ in range(pages):
            self.settle()
            new, is_all = self.take_page()
            self.stored_count += new
            if is_all:
                break
        else:  # more than a box should have to say (the alarm `talks`), until it is collected whole
            talks = f"it has more than {pages * PAGE} readings, and the rest waits for the next collection"
            with self.database.transaction() as cursor:
                cursor.execute("UPDATE boxes SET talks = %s WHERE name = %s", (talks, self.box))
        self.settle()
        with self.database.transaction() as cursor:
            return int(rows_of(cursor, STANDING, self.box)[0].confirmed)

    def take_page(self) -> Tuple[int, bool]:
        """Stores a page, and its CONFIRM with it; how many readings were new, and whether the box has no more."""
        with self.locked() as (cursor, link, known):
            if self.order(cursor, IS_OPEN):
                return 0, False  # came from another visit; it goes first
            standing, seen = self.look(cursor, link, known)
            new = self.new_readings(cursor, seen, standing.confirmed + 1)
            window = rows_of(cursor, "SELECT collected_at, now() FROM boxes WHERE name = %s", self.box)[0]
            store_readings(cursor, self.box, new, Window(*window))
            if seen.readings:
                serial = seen.readings[-1].serial
                self.own = value_of(cursor, CONFIRM, self.box, f"CONFIRM {serial}", serial, standing.number + 1)
                self.is_checked = True
            if seen.is_all:
                cursor.execute("UPDATE boxes SET collected_at = now(), fault = NULL, talks = NULL WHERE name = %s",
                               (self.box,))
            return len(new), seen.is_all

    def new_readings(self, cursor: Cursor, seen: Seen, first: int) -> List[Reading]:
        """The readings shown that aren't in the database.

        Raises Disagreement where one is there with another content, or is there and isn't shown."""
        last = LAST_SERIAL if seen.is_all else seen.readings[-1].serial
        there = stored(cursor, self.box, first, last)
        shown = {reading.serial: reading for reading in seen.readings}
        for serial, reading in there.items():
            if shown.get(serial) != reading:
                what = "another" if serial in shown else "no"
                raise Disagreement(f"the box shows {what} reading of serial {serial}, and the database has one")
        return [reading for serial, reading in shown.items() if serial not in there]
