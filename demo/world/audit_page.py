"""The cases of the page that audits a sheet's file. demo/same compares its module with `mbdc audit` over files by chance."""

import base64
import hashlib
import json
import pathlib
import re
from typing import Any, Optional

from world.browser import Browser, each_look
from world.cases import until, wants

ROOT = pathlib.Path(__file__).resolve().parent.parent.parent
SECONDS = 60
# The file and the page that the tests in code have, too
EXAMPLE = re.findall(r'EXAMPLE: &\[u8\] = b"(.*?)"', (ROOT / "tests/audit/file.test").read_text(encoding="utf-8"), re.DOTALL)[0]
PAGE = re.findall(r'PAGE: &str = "(.*?)";', (ROOT / "tests/audit/sheet.test").read_text(encoding="utf-8"), re.DOTALL)[0].replace('\\"', '"')


def dropped(*contents: bytes) -> str:
    """A script that drops these files."""
    coded = [base64.b64encode(content).decode() for content in contents]
    return (f"const transfer = new DataTransfer(); for (const coded of {json.dumps(coded)}) transfer.items.add(new File("
            "[Uint8Array.from(atob(coded), (it) => it.charCodeAt(0))], '2026-10'));"
            "dispatchEvent(new DragEvent('drop', { dataTransfer: transfer }));")


def audited(browser: Browser, content: bytes, is_file: bool = False) -> tuple[str, str]:
    """Audits a file as who drops it does, or as text. Returns the page's verdict and what it prints."""
    script = "last = null; document.getElementById('said').textContent = ''; "
    if is_file:
        script += dropped(content)
    else:
        script += f"document.getElementById('input').value = {json.dumps(content.decode())}; document.getElementById('form').requestSubmit();"
    browser.run(script)
    until(browser.said, SECONDS, "the page says nothing")
    verdict: Any = browser.run("return [last.verdict, last.printed];")
    return verdict[0], verdict[1]


def links(browser: Browser) -> None:
    """The link of a sheet names its file: the page says whether a file is that one."""
    content = EXAMPLE.encode()
    browser.open(hashlib.sha256(content).hexdigest())
    wants(browser.said() == "Choose the file that the sheet names.", browser.said())
    wants(audited(browser, content, True)[0] == "right", browser.said())
    wants("It is the file that the sheet names." in browser.run("return document.getElementById('hash').textContent;"), "another file")
    wants(audited(browser, content.replace(b"9.31", b"9.32", 1), True)[0] == "wrong", browser.said())
    wants(browser.said() == "It is not the file that the sheet names. 1 of 5 numbers is wrong: place A1 cold water.", browser.said())
    wants(browser.run("return document.getElementById('said').className;") == "bad", "it isn't red")
    row = browser.run("return document.querySelector('tr.bad').textContent;")
    wants("9.32 m³" in row and "computed: 9.31 measured" in row, row)
    twice = content.replace(b"2026-10-31,60\nprice", b"2026-10-31,60\nspan,2,2026-10-31,60,2026-10-31,60\nprice").replace(b"426C5F3A", b"426C5E3A")
    wants(audited(browser, twice, True)[0] == "wrong", browser.said())
    wants(browser.said().endswith(" 1 reading has no evidence. 1 rule is broken: Span."), browser.said())


def numbers(browser: Browser) -> None:
    """The table has the file's numbers, and what is declared."""
    browser.open()
    audited(browser, EXAMPLE.encode())
    rows = browser.run("return Array.from(document.querySelectorAll('tbody tr'), (row) => Array.from(row.cells, (it) => it.textContent));")
    wants((browser.said(), browser.run("return document.getElementById('said').className;")) == ("All 5 numbers are right.", "good"), browser.said())
    wants([row[3] for row in rows] == ["9.31 m³", "20.02 €", "9.31 m³", "412.07 m³", "421.38 m³", "215 ct/m³", "62.5 m²"], f"{rows}")
    wants([row[4] for row in rows] == ["measured", "", "measured", "", ""] + ["declared, not audited"] * 2, f"{rows}")
    wants(all(row[1] in ("cold water", "") for row in rows), f"{rows}")
    # (by the house's clock, wherever the browser is)
    times = [row[2].replace("\u202f", " ") for row in rows[:4]]
    wants(times == ["Oct 1, 2026 – Oct 31, 2026"] * 3 + ["Oct 1, 2026, 12:00 AM"], f"{times}")
    allocator = EXAMPLE.replace("cold water,volume", "cold water,units").replace("A1,cold water,1\n", "A1,cold water,1.75\n")
    audited(browser, allocator.encode())
    row = browser.run("return Array.from(document.querySelectorAll('tbody tr')[7].cells, (it) => it.textContent);")
    wants(row == ["weight A1", "cold water", "", "1.75 ", "declared, not audited"], f"{row}")
    audited(browser, EXAMPLE.replace("span,1,", "as,cold water,06,no other meter\nspan,1,").encode())
    row = browser.run("return Array.from(document.querySelectorAll('tbody tr')[7].cells, (it) => it.textContent);")
    wants(row == ["device type 06", "cold water", "", "no other meter ", "declared, not audited"], f"{row}")


def sheets(browser: Browser) -> None:
    """A sheet is compared with its file, whichever comes first, or both together."""
    browser.open()
    right, wrong, file = PAGE.encode(), PAGE.replace("9,31", "9,32").encode(), EXAMPLE.encode()
    browser.run(dropped(right))
    until(browser.said, SECONDS, "the page says nothing")
    wants(browser.said() == "Choose the file that the sheet names.", browser.said())
    for files, said, kind in (((file,), "All 5 numbers are right. The sheet shows the file's numbers, and no others.", "good"),
                              ((wrong, file), "All 5 numbers are right. 1 place of the sheet isn't the file's.", "bad"),
                              ((right,), "All 5 numbers are right. The sheet shows the file's numbers, and no others.", "good")):
        browser.run(f"document.getElementById('said').textContent = ''; {dropped(*files)}")
        until(browser.said, SECONDS, "the page says nothing")
        wants((browser.said(), browser.run("return document.getElementById('said').className;")) == (said, kind), browser.said())
    audited(browser, file, True)
    wants(browser.said() == "All 5 numbers are right.", "the sheet of another file is compared")


def hostile(browser: Browser) -> None:
    """What isn't an audit file harms nothing."""
    browser.open()
    lines = EXAMPLE.replace("A1", "<img src=x onerror=document.title=1>")
    for text in ("", "\n", "audit", "<script>document.title=1</script>", lines, "\u202e", "place,\n" * 1000, "of_user,__proto__\n", "x" * 5000, EXAMPLE + "end\n"):
        verdict, _ = audited(browser, text.encode())
        wants(verdict == "wrong", f"{text[:40]!r}: {verdict}")
        wants(browser.run("return document.title;") == "Audit a sheet", f"{text[:40]!r} ran")
        wants(browser.run("return document.querySelectorAll('#found img, #found script').length;") == 0, f"{text[:40]!r}: an element")
    large = EXAMPLE.replace("window,1\n", "window,1\n" + "hand,1,1790719200,410,m3\n" * 2000)
    wants(audited(browser, large.encode(), True)[0] in ("right", "wrong"), "a large file")
    wants(audited(browser, ("".join(f"user,{n},A{n},50\n" for n in range(1, 60_000))).encode(), True)[1].startswith("LINE 1 FAULT 1"), "a large file of none")
    size = browser.run("return memory().byteLength;")
    audited(browser, large.encode(), True)
    wants(browser.run("return memory().byteLength;") == size, "memory isn't given back")
    wants(not browser.errors(), "the browser logged errors")


def keyboard(browser: Browser) -> None:
    """The keyboard reaches all, a screen reader gets names and a table, and both languages have each word."""
    from selenium.webdriver.common.keys import Keys
    browser.open()
    order = []
    for key in (Keys.TAB, Keys.TAB, Keys.TAB, Keys.ENTER, Keys.TAB, Keys.TAB):
        browser.press(key)
        order.append(browser.focus())
    wants(order == ["language", "file", "input-name", "input-name", "input", "BUTTON"], f"order of the keyboard: {order}")
    browser.has_both_languages()
    audited(browser, EXAMPLE.encode())
    known = browser.known()
    for role, name in (("textbox", "Or its text"), ("button", "Audit"), ("table", "What is in the file")):
        wants(any(it[0] == role and it[1].startswith(name) for it in known), f"no {role} {name}")


def looks(browser: Browser, folder: Optional[pathlib.Path]) -> None:
    """Nothing is wider than the window, and each text has contrast: both languages, light and dark, two widths."""
    for language, scheme, width in each_look():
        browser.open("0" * 64, language, scheme, width)
        audited(browser, EXAMPLE.encode())
        browser.looks_well(f"{language}, {scheme}, {width}")
        if folder:
            browser.keep_picture(folder / f"audit-{language}-{scheme}-{width}.png", width)


CASES = [links, numbers, sheets, hostile, keyboard]
