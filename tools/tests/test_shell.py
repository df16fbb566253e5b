"""What the shell tools say of the built program and of the library."""

import pathlib
import subprocess
from typing import Optional

import pytest

ROOT = pathlib.Path(__file__).resolve().parents[2]


def printed(*words: object, cwd: pathlib.Path = ROOT) -> str:
    return subprocess.run(list(map(str, words)), cwd=cwd, check=True, stdout=subprocess.PIPE, text=True).stdout


@pytest.mark.parametrize("commit, said", [("0123456789ab\n", "mbdc 1, logic 2, commit 0123456789ab\n"), ("", "mbdc 1, logic 2\n"), (None, "mbdc 1, logic 2\n")])
def test_a_program_and_its_commit(tmp_path: pathlib.Path, commit: Optional[str], said: str) -> None:
    program = tmp_path / "mbdc"
    program.write_text("#!/bin/sh\necho mbdc 1, logic 2\n")
    program.chmod(0o755)
    if commit is not None:
        (tmp_path / "mbdc.commit").write_text(commit)
    assert printed("bash", "-euc", f"root={ROOT}; . {ROOT}/tools/built.sh; version_and_commit {program}") == said


def test_a_commit_with_other_sources_has_a_plus(tmp_path: pathlib.Path) -> None:
    for words in (["init", "-q"], ["config", "user.name", "x"], ["config", "user.email", "x@example.com"]):
        printed("git", *words, cwd=tmp_path)
    (tmp_path / "crates").mkdir()
    (tmp_path / "crates.txt").write_text("")
    (tmp_path / "notes").write_text("")
    printed("git", "add", ".", cwd=tmp_path)
    printed("git", "commit", "-qm", "x", cwd=tmp_path)
    commit = ["bash", "-euc", f"root={tmp_path}; . {ROOT}/tools/built.sh; commit"]
    head = printed("git", "rev-parse", "--short=12", "HEAD", cwd=tmp_path).strip()
    (tmp_path / "notes").write_text("more")
    assert printed(*commit) == f"{head}\n"
    (tmp_path / "crates" / "new").write_text("")
    assert printed(*commit) == f"{head}+\n"
