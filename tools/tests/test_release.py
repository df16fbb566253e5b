"""tools/release finds what a release may not change, in small trees."""

import pathlib
import types
from collections.abc import Callable

import pytest

REFUSALS = "dc_linkframe/FrameFault: 1 Empty, 2 Start, 3 Truncated\ndc_log/StoreFault: 1 NotImage, 2 Damaged\ndc_x/f (a)\n"
CHANGES = "# Changes\n\n## Unreleased\n\nNew:\n\n* x\n\n## 0.2.0, 2026-12-01\n\n## 0.1.0\n\nfirst\n"


@pytest.fixture
def release(tool: Callable[[str], types.ModuleType]) -> types.ModuleType:
    return tool("release")


def test_a_number_with_another_name(release: types.ModuleType) -> None:
    old = release.faults_in(REFUSALS)
    assert old["FrameFault", "3"] == "Truncated" and len(old) == 5
    assert release.renamed(old, old) == []
    assert release.renamed(old, release.faults_in(REFUSALS.replace("3 Truncated", "3 Cut"))) == [
        "FrameFault 3 was Truncated, is Cut"]
    assert release.renamed(old, release.faults_in(REFUSALS.replace(", 3 Truncated", ", 4 Lengths"))) == []


def test_the_version_by_each_place(release: types.ModuleType, tmp_path: pathlib.Path) -> None:
    for place, text in (("CHANGELOG.md", CHANGES), ("debian/changelog", "mbdc (0.2.0) unstable; urgency=low\n"),
                        (release.HELP, 'pub const VERSION: &str = "0.1.0, logic x";\n'), (release.PYTHON, '__version__ = "0.2.0"\n')):
        (tmp_path / place).parent.mkdir(parents=True, exist_ok=True)
        (tmp_path / place).write_text(text)
    assert sorted(release.versions_of(tmp_path).values()) == ["0.1.0", "0.2.0", "0.2.0", "0.2.0"]


def test_a_case_that_prints_another_text(release: types.ModuleType, tmp_path: pathlib.Path) -> None:
    file = tmp_path / "frames.txt"
    file.write_text("# by hand\n$ decode\n> E5\nACK\n\n$ decode\n> 10\nFRAME FAULT 3 Truncated\n")
    old = release.cases_in(tmp_path)
    file.write_text("# by hand, again\n$ decode\n> E5\nACK\n\n$ decode\n> 10\nFRAME FAULT 3 Cut\n")
    assert release.gone("case", old, release.cases_in(tmp_path)) == [
        "case is gone: $ decode > 10 FRAME FAULT 3 Truncated"]


def test_symbols_and_versions_of_images(release: types.ModuleType) -> None:
    assert release.symbols_in("MBDC_0 {\n global: mbdc_decode_text; mbdc_x;\n local: *;\n};") == {"mbdc_decode_text", "mbdc_x"}
    assert release.image_versions_in("| 4 | version: 2, or 1 of an earlier release |\n") == {"1", "2"}


def test_what_changelog_lists_may_go(release: types.ModuleType, tmp_path: pathlib.Path) -> None:
    for name, text in (("old", "{ mbdc_a; mbdc_b; }"), ("new", "{ mbdc_a; }")):
        (tmp_path / name).write_text(text)
    for listed, wanted in (("", ["symbol is gone: mbdc_b"]), ("`mbdc_b` goes", [])):
        assert release.gone_from(tmp_path / "old", tmp_path / "new", "symbol", release.symbols_in, listed) == wanted
    this = release.Release()
    for version, last, may in (("0.3.0", "0.2.9", True), ("0.2.1", "0.2.0", False), ("1.1.0", "1.0.0", False), ("2.0.0", "1.0.0", True)):
        this.version = version
        assert this.may_change(last) == may


def test_each_step_has_a_program(release: types.ModuleType) -> None:
    for step, commands in release.STEPS.items():
        assert bool(commands) != (step in release.OWN or step == "check")
        assert all((release.ROOT / command.split()[0]).exists() for command in commands)


def test_the_places_that_it_reads_are_there(release: types.ModuleType) -> None:
    root = release.ROOT
    assert release.symbols_in((root / release.EXPORTS).read_text())
    assert release.image_versions_in((root / release.IMAGE).read_text())
    assert len(release.cases_in(root / release.CASES)) > 50
    assert "none" not in release.versions_of(root).values()


def test_after_a_step_that_others_need_none_is_tried(release: types.ModuleType, tmp_path: pathlib.Path,
                                                     monkeypatch: pytest.MonkeyPatch) -> None:
    monkeypatch.setattr(release, "LOG", tmp_path / "log")
    monkeypatch.setattr(release, "KEPT", tmp_path / "steps.json")
    for failing, left in (("", 0), ("build", len(release.STEPS) - 4), ("house", 0)):
        monkeypatch.setattr(release, "row_of", lambda step, *_: release.Row(step != failing, 0, ""))
        rows: dict[str, object] = {}
        release.do(list(release.STEPS), rows, None, None)
        assert len(release.STEPS) - len(rows) == left
