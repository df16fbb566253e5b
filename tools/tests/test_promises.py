"""tools/promises reads functions, their clauses and their owners from sources."""

import pathlib
import types
from collections.abc import Callable

import pytest

SOURCE = '''//! A test.

impl<D: Disk> Store<D> {
    /// Appends.
    ///
    /// # Errors
    ///
    /// Full, where there is no room.
    pub fn append(&mut self, data: &[u8]) -> Result<(), Fault>
        requires open { self.is_open }
        ensures done { self.now }
        ensures same {
            '{' ≡ "{"
        }
    {
        if data.is_empty() { return Ok(()); }
        self.write(data)
    }
}

impl Display for Fault {
    fn fmt(&self) -> usize {
        7
    }
}

pub fn law()
    ensures { true }
{}
'''
EDIT = "file: src/store.rt\nold:         {0}\nnew:         8\n"


@pytest.fixture
def promises(tool: Callable[[str], types.ModuleType]) -> types.ModuleType:
    return tool("promises")


def test_functions_with_their_owners_and_clauses(promises: types.ModuleType, tmp_path: pathlib.Path) -> None:
    file = tmp_path / "store.rt"
    file.write_text(SOURCE)
    append, shown, law = promises.functions_of("dc_x", file)
    assert append.label() == "Store::append" and append.is_public
    assert append.promise() == "dc_x/Store::append (done, same): Appends."
    assert append.errors() == ["Full, where there is no room."]
    assert shown.names() == ["Fault::fmt", "Display::fmt"] and law.is_theorem() and not append.is_theorem()


@pytest.fixture
def crate(promises: types.ModuleType, tmp_path: pathlib.Path, monkeypatch: pytest.MonkeyPatch) -> types.SimpleNamespace:
    """A crate with a mutant that changes `Store::append` and one that changes `Display::fmt`."""
    for name, text in (("src/store.rt", SOURCE), ("must-fail/keeps_nothing.edit", EDIT.format("self.write(data)")),
                       ("must-fail/shows_eight.edit", EDIT.format("7"))):
        file = tmp_path / "crates/dc_x" / name
        file.parent.mkdir(parents=True, exist_ok=True)
        file.write_text(text)
    monkeypatch.setattr(promises, "ROOT", tmp_path)
    monkeypatch.setattr(promises, "THEOREMS", "dc_x")
    made: types.SimpleNamespace = promises.Crate("dc_x")
    return made


def test_what_is_wrong_with_promises(promises: types.ModuleType, crate: types.SimpleNamespace) -> None:
    page = "`dc_x/Store::append`\n(done, gone) `dc_x/law` `dc_x/lost` `dc_y/law` `Store::lost`"
    assert set(promises.faults_of({"dc_x": crate}, page)) == {
        "dc_x/law: no doc comment", "dc_x: no promise rests on what must-fail/shows_eight changes", "dc_x: Store::append has no clause gone",
        "dc_x: no contract of lost", "dc_y: no contract of law", "dc_x/src/store.rt: no theorem says that its premises may be met"}
