"""The cases of the decoder's page: as people use it and as they shouldn't."""

import csv
import io
import json
import pathlib
import time
from collections.abc import Callable
from typing import Any, Optional

from world.browser import LANGUAGES, MOST_SECONDS, WIDTHS, Browser, each_look
from world.cases import wants
from world.frames import RSP_UD, Identity, answer, digits, header, long_frame

TELEGRAM = "68 1F 1F 68 08 02 72 78 56 34 12 24 40 01 07 55 00 00 00 03 13 15 31 00 DA 02 3B 13 01 8B 60 04 37 18 02 18 16"
SHORT, WRONG_SUM = "10 5B 01 5C 16", "10 40 05 46 16"
CUT = digits(answer(2, header(Identity(12345678), access=0) + bytes.fromhex("0313")))
CUT_UNNAMED = digits(long_frame(RSP_UD, 2, 0x78, bytes.fromhex("0313")))
PLAIN = digits(answer(2, header(Identity(12345678), access=0) + bytes.fromhex("0313153100 02FC03485225F400440D")))
MIB = 1024 * 1024
COLUMNS = 20  # of the CSV

# Inputs of 1 MiB; and ones that the browser's own text area takes minutes to lay out: they are decoded without it
LARGE = {"one line": "6" * MIB, "spaces": " " * MIB, "tags": "<script>" * (MIB // 8), "marks": ":" * MIB,
         "telegrams": f"{TELEGRAM}\n" * (MIB // 112), "cut telegrams": f"{CUT}\n" * (MIB // 48), "letters": "\u00e4" * (MIB // 2),
         "frames of a line": ("E5" * 2048 + "\n") * (MIB // 4097)}
NOT_SHOWN = {"acknowledgements": "E5\n" * (MIB // 3), "line feeds": "\n" * MIB, "surrogates": "\ud800 E5\n" * (MIB // 5)}


def pasting(browser: Browser) -> None:
    """What people paste is decoded, and the page says what it left out."""
    browser.open()
    for text in ("10 5B 01 5C 16", "105b015c16", "0x10 0x5B 0x01 0x5C 0x16", "0x10,0x5b,0x01,0x5c,0x16", "10:5B:01:5C:16\r\n",
                 "10-5B-01-5C-16", "[10 5B 01 5C 16]", "\ufeff10 5B 01 5C 16", "10\u00a05B\u00a001\u00a05C\u00a016", "10\t5B\t01\t5C\t16"):
        said = browser.decode(text)
        wants(said.startswith("1 frame, 0 with a fault."), f"{text!r}: {said}")
        wants(("Left out" in said) == (set(text) - set("0123456789ABCDEFabcdef ") != set()), f"{text!r}: {said}")
    wants("belong together" not in browser.decode(f"{SHORT}\n{WRONG_SUM}"), "a hint without a truncated frame")
    browser.decode(TELEGRAM.replace(" 02 72", "\n02 72"))
    wants("belong together" in browser.said(), "no hint that the lines belong together")
    browser.run("document.getElementById('joined').click();")
    wants(browser.said().startswith("1 frame, 0"), browser.said())


def telegram(browser: Browser) -> None:
    """A telegram shows its meter, its records and its bytes; a fault its place."""
    browser.open()
    browser.decode(TELEGRAM)
    shown = browser.shown()
    for word in ("12345678.PAD.01.07", "water", "12.565", "m3", "0.113", "m3/h", "218370", "Wh", "maximum", "no error"):
        wants(word in shown, f"{word} isn't shown")
    browser.decode(WRONG_SUM)
    wants(browser.run("return document.querySelector('.here').textContent;") == "46", "the wrong sum isn't marked")
    wants("byte 3" in browser.shown() and "the sum of the bytes before it" in browser.shown(), browser.shown())
    for text, place, word in ((CUT, 19, "a whole record"), (CUT_UNNAMED, 7, "a whole record"),
                              (PLAIN, 24, "a record whose VIF isn't FC")):
        wants(browser.decode(text).startswith("1 frame, 1 with a fault."), browser.said())
        wants(word in browser.shown() and f"byte {place}" in browser.shown(), browser.shown())


def links(browser: Browser) -> None:
    """A link opens with its telegram, and Copy link makes that link."""
    for link in (TELEGRAM.replace(" ", "%20"), TELEGRAM.replace(" ", ""), TELEGRAM.replace(" ", "+")):
        browser.open(link)
        wants(browser.said().startswith("1 frame, 0"), f"{link}: {browser.said()}")
    for link in ("%E0%A4%A", "%", "<script>document.title='x'</script>", "%3Cimg%20src=x%20onerror=%22document.title='x'%22%3E"):
        browser.open(link)
        wants(browser.run("return document.title;") == "M-Bus decoder", f"{link}: it ran")
        wants("fault" in browser.said() or "no digits" in browser.said(), f"{link}: {browser.said()}")
    browser.open()
    browser.run("location.hash = arguments[0];", SHORT)
    time.sleep(0.2)
    wants(browser.said().startswith("1 frame, 0"), f"a changed hash: {browser.said()}")
    wants("#10%205B%2001" in browser.run("return link();"), "the link")


def copies(browser: Browser) -> None:
    """The copies are CSV and JSON of all frames, and a spreadsheet takes no cell as a formula."""
    browser.open()
    browser.tell("Browser.grantPermissions", permissions=["clipboardReadWrite", "clipboardSanitizedWrite"])
    browser.decode(f"{TELEGRAM}\n{WRONG_SUM}\n" + f"{SHORT}\n" * 300)
    wants("more are not shown" in browser.said(), browser.said())
    rows = list(csv.reader(io.StringIO(browser.run("return csv();"), newline="")))
    wants([len(row) for row in rows] == [COLUMNS] * 5, f"rows of the CSV: {[len(row) for row in rows]}")
    wants([row[4:6] for row in rows[1:4]] == [["12.565", "m3"], ["0.113", "m3/h"], ["218370", "Wh"]], f"{rows}")
    wants(not any(value[:1] in ("=", "+", "@", "\t") for row in rows for value in row), "a formula")
    wants(rows[4][0] == "2" and rows[4][12].startswith("frame 7"), f"{rows[4]}")
    wants(len([json.loads(line) for line in browser.run("return json();").splitlines()]) == 302, "objects of the JSON")
    browser.run("document.getElementById('csv').click();")
    time.sleep(0.3)
    wants("Copied." in browser.said() or "allow" in browser.said(), browser.said())


def keyboard(browser: Browser) -> None:
    """All of it works with the keyboard alone, and the place is seen."""
    from selenium.webdriver.common.keys import Keys
    browser.open()
    order = []
    for _ in range(7):
        browser.press(Keys.TAB)
        order.append(browser.focus())
        outline = browser.run("const it = getComputedStyle(document.activeElement); return [it.outlineStyle, parseFloat(it.outlineWidth)];")
        wants(outline[0] != "none" and outline[1] >= 2, f"{order[-1]} shows no focus: {outline}")
    wants(order == ["language", "input", "joined", "BUTTON", "csv", "json", "link"], f"order of the keyboard: {order}")
    browser.open()
    browser.press(Keys.TAB, Keys.TAB, *TELEGRAM[:59], Keys.ENTER, *TELEGRAM[60:])
    browser.press(Keys.TAB, " ", Keys.TAB, Keys.ENTER)
    wants(browser.said().startswith("1 frame, 0"), browser.said())
    browser.press(Keys.TAB, Keys.TAB, Keys.TAB, Keys.TAB)
    wants(browser.focus() == "TR", f"after the buttons: {browser.focus()}")
    lit = "return Array.from(document.querySelectorAll('.lit')).map((one) => one.textContent.trim());"
    wants(browser.run(lit) == ["03 13 15 31 00"], f"bytes of the first record: {browser.run(lit)}")
    browser.press(Keys.TAB)
    wants(browser.run(lit) == ["DA 02 3B 13 01"], f"bytes of the second record: {browser.run(lit)}")
    browser.run("document.getElementById('language').focus();")
    browser.press(Keys.ENTER)
    wants("Rahmen" in browser.said() and browser.run("return document.documentElement.lang;") == "de", browser.said())


def screen_reader(browser: Browser) -> None:
    """A screen reader gets names, a table, and what changed."""
    for width in WIDTHS:
        browser.open(width=width)
        browser.decode(TELEGRAM)
        known = browser.known()
        for role, name in (("textbox", "Hex digits"), ("checkbox", "The lines belong"), ("button", "Decode"), ("button", "Deutsch"),
                           ("button", "Copy as CSV"), ("heading", "M-Bus decoder"), ("heading", "Line 1: Long frame, 12345678.PAD.01.07, water"), ("table", "Records")):
            wants(any(it[0] == role and it[1].startswith(name) for it in known), f"{width}: no {role} {name}")
        wants(sum(role == "row" for role, _ in known) == 4, f"{width}: rows of the table")
        wants(sum(role == "columnheader" for role, _ in known) == 7, f"{width}: heads of the table")
        wants(any(role == "status" for role, _ in known), f"{width}: no status")


def languages(browser: Browser) -> None:
    """Both languages have each word, and the browser's one comes first."""
    browser.open()
    browser.has_both_languages()
    for language in LANGUAGES:
        browser.open(SHORT.replace(" ", ""), language)
        wants(browser.run("return document.documentElement.lang;") == language, f"{language} isn't the page's language")
        empty = browser.run("return Array.from(document.querySelectorAll('[data-text]')).filter((one) => !one.textContent).length;")
        wants(empty == 0, f"{language}: words are missing")


def looks(browser: Browser, folder: Optional[pathlib.Path]) -> None:
    """Nothing is wider than the window, and each text has contrast: both languages, light and dark, two widths."""
    for language, scheme, width in each_look():
        browser.open("", language, scheme, width)
        browser.decode(f"{TELEGRAM}\n{WRONG_SUM}\nXY\n{CUT}\nE5")
        browser.run("document.querySelector('tbody tr').focus();")
        browser.looks_well(f"{language}, {scheme}, {width}")
        if folder:
            browser.keep_picture(folder / f"{language}-{scheme}-{width}.png", width)


def timed(call: Callable[[str], Any], text: str) -> tuple[Any, float]:
    """What a call returns, and the seconds that it took: no more than the most."""
    begun = time.monotonic()
    returned = call(text)
    seconds = time.monotonic() - begun
    wants(seconds < MOST_SECONDS, f"it took {seconds:.0f} s")
    return returned, seconds


def hostile(browser: Browser) -> None:
    """What is no telegram harms nothing, and the page works on; 1 MiB takes seconds."""
    browser.open()
    tags = ("<script>document.title = 'x'</script>", "<img src=x onerror=\"document.title = 'x'\">", "<svg onload=\"document.title = 'x'\">",
            "javascript:document.title='x'", "</textarea><script>document.title = 'x'</script>", "\u0000", "\u202e16 5C", "\ud800 E5", "\udfff",
            "E5\ud800\udc00", "__proto__", "constructor", "0x", "0x0x0x", "\u2028E5\u2029", "\U0001f600" * 100)
    for text in tags:
        browser.decode(text)
        wants(browser.run("return document.title;") == "M-Bus decoder", f"{text!r} ran")
        wants(browser.run("return document.querySelectorAll('#frames script, #frames img, #frames svg').length;") == 0, f"{text!r}: an element")
    for name, text in LARGE.items():
        said, seconds = timed(browser.decode, text)
        print(f"    {name}: {seconds:.1f} s: {said[:70]}", flush=True)
        wants("frame" in said or "no digits" in said, f"{name}: {said}")
    for name, text in NOT_SHOWN.items():
        count, seconds = timed(browser.run, f"return decodeAll({json.dumps(text)}).found.length;")
        print(f"    {name}: {seconds:.1f} s: {count} frames", flush=True)
        wants(count == text.count("E5"), f"{name}: {count} frames")  # (or a fault for each)
    wants(browser.decode(SHORT).startswith("1 frame, 0"), "the page works no more")
    wants(not browser.errors(), "the browser logged errors")


def policy(browser: Browser) -> None:
    """The page loads nothing and sends nothing: its policy forbids it."""
    browser.open()
    tried = """
const done = arguments[arguments.length - 1], violated = [];
document.addEventListener("securitypolicyviolation", (one) => violated.push(one.effectiveDirective));
const script = document.createElement("script");
script.textContent = "document.title = 'x'";
document.body.append(script);
const image = new Image();
image.src = "http://127.0.0.1:9/x";
fetch("http://127.0.0.1:9/").catch(() => {});
const frame = document.createElement("iframe");
frame.src = "http://127.0.0.1:9/";
document.body.append(frame);
// (the driver's own script is allowed more than what it starts)
setTimeout(() => { try { new Function("document.title = 'x'")(); } catch { violated.push("eval"); } }, 100);
setTimeout(() => done(violated), 1000);
"""
    violated = set(browser.driver.execute_async_script(tried))
    for kind in ("script-src-elem", "img-src", "connect-src", "frame-src", "eval"):
        wants(kind in violated, f"{kind} is allowed; forbidden: {violated}")
    wants(browser.run("return document.title;") == "M-Bus decoder", "a script ran")


def old_browser(browser: Browser) -> None:
    """A browser without WebAssembly gets one sentence."""
    script = browser.tell("Page.addScriptToEvaluateOnNewDocument", source="WebAssembly.instantiate = async () => { throw new Error('no'); };")
    try:
        for language, word in zip(LANGUAGES, ("needs Chrome", "braucht Chrome")):
            browser.open("", language)
            seen = browser.run("return [document.getElementById('refused').innerText, document.getElementById('form').offsetParent !== null];")
            wants(word in seen[0] and not seen[1], f"{seen}")
    finally:
        browser.tell("Page.removeScriptToEvaluateOnNewDocument", identifier=script["identifier"])


CASES = [pasting, telegram, links, copies, keyboard, screen_reader, languages, hostile, policy, old_browser]
