"""The checks of texts over small trees: what they find, and what they pass."""

import pathlib
import types
from collections.abc import Callable

import pytest

PAGE = """# A page

## `poll IMAGE --line N=LINK ..`

## One master

## One master

[here](#one-master), [second](#one-master-1), [poll](#poll-image---line-nlink-), [web](https://example.org/x#y),
[a link over
two lines](other.md)

```
[no link](nowhere.md)
```
"""
PLACES = {"src": r'=> "([^"]+)"', "specs": r'codes "([^"]+)"'}


@pytest.fixture
def texts(tool: Callable[[str], types.ModuleType], tmp_path: pathlib.Path, monkeypatch: pytest.MonkeyPatch) -> types.ModuleType:
    made = tool("texts")
    monkeypatch.setattr(made, "ROOT", tmp_path)
    monkeypatch.setattr(made, "UNITS", "page")
    return made


@pytest.mark.parametrize("text, faults", [(PAGE, []), (
    "[a](gone.md) [b](#no-heading) [c](other.md#gone) [d](other.md#other)\n",
    ["gone.md: no such file", "#no-heading: no such heading", "other.md#gone: no such heading"])])
def test_links(texts: types.ModuleType, tmp_path: pathlib.Path, text: str, faults: "list[str]") -> None:
    (tmp_path / "page.md").write_text(text)
    (tmp_path / "other.md").write_text("# Other\n")
    assert texts.anchors(PAGE) == {"a-page", "poll-image---line-nlink-", "one-master", "one-master-1"}
    assert list(texts.astray(tmp_path / "page.md")) == [f"page.md: {it}" for it in faults]


@pytest.mark.parametrize("listed, faults", [("m3", []), (
    "Wh", ["page, row 'point' lacks the unit m3, which src has", "src lacks the unit Wh, which page, row 'point' has"])])
def test_units(texts: types.ModuleType, tmp_path: pathlib.Path, listed: str, faults: "list[str]") -> None:
    for name, text in {"src": 'Volume => "m3"', "specs": 'volume = codes "m3"', "page": f"| point | `{listed}` |\n"}.items():
        (tmp_path / name).write_text(text)
    assert texts.compared(PLACES, "point") == ({"m3"}, faults)
