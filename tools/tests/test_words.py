"""Completions and manual pages of mbdc, mbdc-house and mbdc-page, made over the help that the sources have."""

import pathlib
import shutil
import subprocess

import pytest

PACKAGING = pathlib.Path(__file__).resolve().parents[2] / "packaging"
ASK = ("source {}/bash-completion/completions/{}; compopt() {{ :; }}; COMP_WORDS=({}); COMP_CWORD=$((${{#COMP_WORDS[@]}} - 1)); "
       "{}; printf '%s\\n' \"${{COMPREPLY[@]}}\"")


@pytest.fixture(scope="module")
def share(tmp_path_factory: pytest.TempPathFactory) -> pathlib.Path:
    """The folder of what the package has in /usr/share."""
    folder = tmp_path_factory.mktemp("words")
    subprocess.run([PACKAGING / "lay", "pages", folder], check=True)
    return folder / "usr/share"


@pytest.mark.parametrize("typed, wanted", [
    ("mbdc po", "poll"), ("mbdc poll house.image --tr", "--tries --trace"), ("mbdc poll house.image --line 1 = se", "serial:"),
    ("mbdc report house.image reg", "register"), ("mbdc-house che", "check"), ("mbdc-house check --", "--ports"),
    ("mbdc-house second che", "check"), ("mbdc-house second check --p", "--ports"), ("mbdc-house poll --o", "--only"),
    ("mbdc-house status --s", "--silent"), ("mbdc-house poll --l", ""), ("mbdc-house scan 1 --c", "--csv"),
    ("mbdc-house read ''", "1 2 3 4 5 6 7 8"),
    ("mbdc-page --l", "--language"), ("mbdc-page --language d", "de"), ("mbdc-page --title x", ""),
    ("mbdc-port /dev/nul", "/dev/null"), ("mbdc-port /dev/ttyS0 24", "2400"), ("mbdc-port /dev/ttyS0 2400 8E", "8E1")])
def test_words_are_completed(share: pathlib.Path, typed: str, wanted: str) -> None:
    program = typed.split()[0]
    ask = ASK.format(share, program, typed, "_" + program.replace("-", "_"))
    done = subprocess.run(["bash", "-c", ask], capture_output=True, text=True, check=True)
    assert (done.stdout.split(), done.stderr) == (wanted.split(), "")


def test_manual_pages_are_sound_and_have_each_command_option_and_setting(share: pathlib.Path) -> None:
    page = {file.name: file.read_text() for file in share.glob("man/man*/*")}
    assert set(page) == {"mbdc.1", "mbdc-house.1", "mbdc-page.1", "mbdc-port.1", "house.conf.5"}
    assert not [name for name, text in page.items() if "\n@" in text]
    for name, words in {"mbdc-house.1": ["check", "after\\-poll", "restore"], "mbdc-page.1": ["\\-\\-days", "en | de"],
                        "house.conf.5": ["LINE_1=", "serial:/PATH", "PATIENCE=", "BACKUP="]}.items():
        assert not [word for word in words if word not in page[name]]
    if shutil.which("groff"):
        for file in share.glob("man/man*/*"):
            done = subprocess.run(["groff", "-man", "-Tutf8", "-wall", "-z", file], capture_output=True, text=True, check=True)
            assert done.stderr == ""


def test_the_completion_for_fish_is_sound(share: pathlib.Path) -> None:
    file = (share / "fish/vendor_completions.d/mbdc-house.fish").resolve()
    text = file.read_text()
    assert "complete -c mbdc-house -f -n __fish_use_subcommand -a check -d 'prints the settings," in text
    assert "complete -c mbdc -n '__fish_seen_subcommand_from poll' -l trace -r -F\n" in text
    if shutil.which("fish"):
        subprocess.run(["fish", "-n", file], check=True)
