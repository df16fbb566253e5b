"""tools/promises follows a clause's names through definitions, and counts their lines."""

import pathlib
import types
from collections.abc import Callable

import pytest

HEADLINE = '''-- A comment.
use Rattle.std.specs.Prelude.{ℕ, List}
use Rattle.dc_y.specs.State.{State, after as later}
use Rattle.dc_y.specs.Lower as lower
use Rattle.dc_y.specs.declared.root.Root.{Root}

-- kept
pub record IsKept (state : State) : Type 0 where
  pub held : later state  -- a comment
  pub by : lower.Holds Root state.unread

pub data Event : Type 0 where
  starts : ℕ → Event

abbrev pub unread : ℕ
unread = 1
'''
STATE = '''pub record State : Type 0 where
  pub numbers : List ℕ

abbrev pub after : State → State
after s =
    s
'''
LOWER = '''module _ {K : Type 0} where

  -- holds
  abbrev pub Holds : ℕ → Type 0
  Holds n = Event

abbrev pub Event : Type 0
Event = ℕ
'''
ROOT = '''/// A root.
pub struct Root {
    /// Its half.
    pub half: u8,
}
'''
CLAUSE = '''ghost use Rattle.dc_x.specs.Headline.{IsKept, starts};
        ensures the_headline { IsKept state }

'''
FILE = '''ghost use Rattle.dc_x.specs.Headline.{unread};
impl Disk for X {
    ghost keeps = { unread };
'''


@pytest.fixture
def headline(tool: Callable[[str], types.ModuleType], tmp_path: pathlib.Path, monkeypatch: pytest.MonkeyPatch) -> types.ModuleType:
    made = tool("promises")
    for name, text in {"dc_x/specs/Headline.antt": HEADLINE, "dc_y/specs/State.antt": STATE, "dc_y/specs/Lower.antt": LOWER,
                       "dc_y/src/root.rt": ROOT, "dc_x/src/x.rt": CLAUSE, "dc_x/src/file.rt": FILE}.items():
        file = tmp_path / "crates" / name
        file.parent.mkdir(parents=True, exist_ok=True)
        file.write_text(text)
    monkeypatch.setattr(made, "ROOT", tmp_path)
    monkeypatch.setattr(made, "HEADLINE", (tmp_path / "crates/dc_x/src/x.rt", "the_headline"))
    monkeypatch.setattr(made, "FILE", (tmp_path / "crates/dc_x/src/file.rt", "Disk for X"))
    monkeypatch.setattr(made, "PARTS", [("first", []), ("second", ["Holds"]), ("disk", ["Ghosts"])])
    made.module_of.cache_clear()
    return made


def test_definitions_that_a_clause_reaches(headline: types.ModuleType) -> None:
    first, second, disk = [[(it.name, len(it.text)) for it, _ in part] for part in headline.reached()]
    assert first == [("IsKept", 3), ("State", 2), ("after", 3), ("Root", 3)]
    assert second == [("Holds", 2), ("Event", 2)] and disk == [("unread", 2)]


def test_definitions_on_a_page_have_their_comments_and_links(headline: types.ModuleType) -> None:
    page = headline.shown_page()
    assert '<h3 id="dc_x/Headline/IsKept">IsKept <small>dc_x Headline, named by the_headline</small></h3>\n<p>kept</p>' in page
    assert '<pre><a href="#dc_x/Headline/IsKept">IsKept</a> state</pre>' in page
    assert '  pub held : <a href="#dc_y/State/after">later</a> state\n' in page and "<p>A root.</p>" in page
    assert 'named by <a href="#dc_x/Headline/IsKept">IsKept</a>' in page and "<p>In words: a concentrator" in page


def test_its_table_takes_the_place_of_the_old_one(headline: types.ModuleType) -> None:
    rows = headline.table()
    assert rows[2:] == ["| first | 4 | 11 |", "| second | 2 | 4 |", "| disk | 1 | 2 |", "| to be read | 6 | 15 |"]
    page = f"# P\n\n{headline.ROWS}\n|---|---|---|\n| old | x | 1 |\n\nAfter it.\n"
    made = headline.replaced(page, rows)
    assert made.startswith("# P\n\n") and made.endswith("| 6 | 15 |\n\nAfter it.\n") and headline.replaced(made, rows) == made
