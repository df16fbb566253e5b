"""Fittings follow the register; a meter keeps its place, under a box with a new name, and where two boxes hear it."""

from typing import Any, List, Tuple

from conftest import FITS, Box, Office
from supplied import HEAT, WH, Supplied, at

FIRST_HEAT, SECOND_HEAT = "33333333.PAD.01.04", "44444444.PAD.01.04"
FITTED = """SELECT p.flat, p.use, p.number, left(f.identity, 8), upper_inf(f.during) FROM fittings f
            JOIN places p ON p.id = f.place ORDER BY f.id"""


def housed(office: Office) -> None:
    office.sql("INSERT INTO houses (house, address) VALUES ('elm', 'Elm Street 1')")
    office.sql("UPDATE boxes SET house = 'elm'")


def fitted(office: Office) -> List[Tuple[Any, ...]]:
    return office.sql(FITTED)


def test_orders(office: Office, box: Box) -> None:
    """The meters of a box are fitted since they are in the register, once it gets its house; another house ends that.
    As a collector: FIT begins a fitting, OUT ends it, MOVE does both, and after SWAP the place is the same."""
    assert fitted(office) == []
    housed(office)
    assert fitted(office) == [("A1", "cold water", 1, "11111111", True), ("A2", "cold water", 1, "22222222", True)]
    assert office.sql("SELECT bool_and(lower(f.during) = m.since) FROM fittings f JOIN meters m USING (identity)") == [
        (True,)]
    office.sql("ALTER ROLE office SET role = 'collector'")
    try:
        for line in (f"FIT {FIRST_HEAT} 1 3 A1", f"SWAP {FIRST_HEAT} {SECOND_HEAT} 4", "MOVE 11111111.PAD.01.07 B7",
                     "OUT 22222222.PAD.01.07", "FIT 55555555.PAD.01.07 1 9 A2", "FIT 66666666.PAD.01.07 1 8 A2",
                     "FIT 77777777.PAD.01.0E 1 7 A2"):
            office.order("house-1", line).ok()
    finally:
        office.sql("ALTER ROLE office RESET role")
    # a bus system has no place
    assert fitted(office) == [("A1", "cold water", 1, "11111111", False), ("A2", "cold water", 1, "22222222", False), (
        "A1", "heat", 1, "33333333", False), ("A1", "heat", 1, "44444444", True),
                              ("B7", "cold water", 1, "11111111", True), ("A2", "cold water", 1, "55555555", True),
                              ("A2", "cold water", 2, "66666666", True)]
    office.sql("INSERT INTO houses (house, address) VALUES ('oak', 'Oak Street 1')")
    office.sql("UPDATE boxes SET house = 'oak'")
    assert [row[4] for row in fitted(office)] == [False] * 7 + [True] * 4


def test_a_new_contact_ends_no_fitting(office: Office, box: Box) -> None:
    """The register is read anew after an older dump; what is in it as before goes on, and what isn't ends."""
    housed(office)
    before = office.sql("SELECT id, during FROM fittings ORDER BY id")
    office.sql("SELECT take_as_it_is('house-1')")
    assert office.collect().status == 0
    assert office.sql("SELECT id, during FROM fittings ORDER BY id") == before
    office.sql("SELECT take_as_it_is('house-1')")
    box.says("3 OUT 22222222.PAD.01.07", f"4 FIT {FIRST_HEAT} 1 3 A2")
    assert office.collect().status == 0
    assert fitted(office) == [("A1", "cold water", 1, "11111111", True), ("A2", "cold water", 1, "22222222", False),
                              ("A2", "heat", 1, "33333333", True)]


# ---- boxes that are replaced, and two of one meter

def test_a_box_is_replaced(office: Office, box: Box) -> None:
    """The new image knows one of the two meters: the other is fitted by an order, and no fitting ends."""
    housed(office)
    before = office.sql("SELECT * FROM fittings ORDER BY id")
    new = office.box("house-1-b")
    office.sql("DELETE FROM boxes WHERE name = 'house-1-b'")
    new.says(f"1 {FITS[0]}")
    command = office.sql("SELECT replace(command, '{box}', 'house-1-b') FROM boxes")[0][0]
    unreached = office.run("replace-box", "house-1", "house-1-b", "--command", "false")
    assert unreached.status == 3 and office.sql("SELECT name, active FROM boxes") == [("house-1", True)]
    ended = office.run("replace-box", "house-1", "house-1-b", "--command", command)
    assert (ended.status, ended.printed) == (0, f"house-1-b {FITS[1]}\n")
    assert office.sql("SELECT name, house, active FROM boxes ORDER BY name") == [
        ("house-1", "elm", False), ("house-1-b", "elm", True)]
    new.hears(2)
    assert office.collect().status == 0
    assert new.numbers()[1:] == [(2, FITS[1]), (3, "CONFIRM 2")]
    assert office.sql("SELECT * FROM fittings ORDER BY id") == before
    for words in (("house-1", "x"), ("nowhere", "x"), ("house-1-b", "house-1")):
        assert office.run("replace-box", *words).status == 2


def test_a_restored_copy_of_the_image(office: Office, box: Box) -> None:
    """It has the identity of the box that it replaces, whose command it keeps."""
    housed(office)
    box.hears(2)
    assert office.collect().status == 0
    assert office.run("replace-box", "house-1", "house-1-b").status == 0
    assert "house-1-b: 0 readings" in office.collect().ok()
    assert len(fitted(office)) == 2


def test_the_months_go_on(office: Office, elm: Supplied) -> None:
    """Readings of the one, then of the other box; also of the due date that each of them has."""
    meter = elm.meter(1, HEAT, "A1")
    elm.reads(meter, at("2024-12-31T18:00"), 1000)
    elm.reads(meter, at("2025-01-15T06:00"), 1100, ("2024-12-31", 1010))
    office.sql("UPDATE boxes SET active = false")
    office.sql("INSERT INTO boxes (name, command, house) VALUES ('elm-1-b', 'false', 'elm-1')")
    elm.box, elm.serial = "elm-1-b", 0
    office.sql("INSERT INTO meters (box, identity, line, address, flat) VALUES ('elm-1-b', '00000001.PAD.01.04', 1,"
               " '1', 'A1')")
    elm.reads(meter, at("2025-02-01T06:00"), 1320, ("2025-01-31", 1310))
    assert office.run("close").status == 0
    assert elm.month("2025-01") == [("A1", 0, 300 * WH, "measured")]
    assert office.sql("SELECT day::text, box FROM day_values ORDER BY day") == [
        ("2024-12-31", "elm-1"), ("2025-01-15", "elm-1"), ("2025-01-31", "elm-1-b"), ("2025-02-01", "elm-1-b")]
    assert office.sql("SELECT count(*) FROM fittings") == [(1,)]


def test_two_boxes_hear_one_meter(office: Office, elm: Supplied) -> None:
    """Its readings are merged by their moments; it keeps its place until both have let it go."""
    meter = elm.meter(1, HEAT, "A1")
    office.sql("INSERT INTO boxes (name, command, house) VALUES ('attic', 'false', 'elm-1')")
    office.sql(
        "INSERT INTO meters (box, identity, line, address, flat) VALUES ('attic', '00000001.PAD.01.04', 1, '1', 'A1')")
    elm.reads(meter, at("2025-01-30T06:00"), 1000)
    elm.reads(meter, at("2025-01-31T06:00"), 1010)
    elm.box, elm.serial = "attic", 0
    elm.reads(meter, at("2025-01-30T16:00"), 1005)
    elm.reads(meter, at("2025-01-31T05:00"), 1009)
    assert office.run("close").status == 0
    assert office.sql("SELECT day::text, value::float, box FROM day_values ORDER BY day") == [
        ("2025-01-30", 1005.0, "attic"), ("2025-01-31", 1010.0, "elm-1")]
    for name, is_open in (("elm-1", True), ("attic", False)):
        office.sql("DELETE FROM meters WHERE box = %s", name)
        assert office.sql("SELECT upper_inf(during) FROM fittings") == [(is_open,)]


def test_readings_before_a_box_came_to_the_house(office: Office, elm: Supplied) -> None:
    """They are of the house in which it was then."""
    meter = elm.meter(1, HEAT, "A1")
    Supplied(office, "oak-2")
    office.sql("UPDATE boxes SET house = 'elm-1' WHERE name = 'oak-2'")
    elm.box = "oak-2"
    elm.reads(meter, at("2025-01-31T06:00"), 1010)
    assert office.run("close", "--house", "elm-1").status == 0
    assert office.sql("SELECT count(*) FROM day_values") == [(0,)]
