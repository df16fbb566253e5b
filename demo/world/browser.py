"""A page of this repository in Chromium: what its demos do with it, and how it looks."""

import itertools
import json
import pathlib
import time
from typing import Any

from world.cases import wants

WIDTHS, SCHEMES, LANGUAGES = (1280, 390), ("light", "dark"), ("en", "de")
LEAST_CONTRAST = 4.5  # WCAG 2.1, 1.4.3, of text
MOST_SECONDS = 60  # of one input of 1 MiB, on a slow machine

# Text whose contrast with the nearest background is too small
CONTRAST = """
const light = (color) => {
  const [r, g, b] = color.match(/[\\d.]+/g).map(Number).map((c) => c / 255).map((c) => (c <= 0.03928 ? c / 12.92 : ((c + 0.055) / 1.055) ** 2.4));
  return 0.2126 * r + 0.7152 * g + 0.0722 * b;
};
const paper = (one) => {
  for (let at = one; at; at = at.parentElement) {
    const color = getComputedStyle(at).backgroundColor;
    if (!/, 0\\)$/.test(color)) return color;
  }
  return "rgb(255, 255, 255)";
};
const found = [];
for (const one of document.querySelectorAll("body *")) {
  if (!Array.from(one.childNodes).some((it) => it.nodeType === 3 && it.textContent.trim()) || !one.offsetParent) continue;
  const [a, b] = [light(getComputedStyle(one).color), light(paper(one))];
  const ratio = (Math.max(a, b) + 0.05) / (Math.min(a, b) + 0.05);
  if (ratio < arguments[0]) found.push(`${one.tagName}.${one.className} ${ratio.toFixed(2)}`);
}
return found;
"""

# Elements that reach beyond the window, and ones whose text is cut off or that lie over each other
OUTSIDE = """
const wide = document.documentElement.clientWidth;
const shown = Array.from(document.querySelectorAll("body *")).filter((one) => one.offsetParent && !one.closest("thead"));
const beyond = shown.filter((one) => { const box = one.getBoundingClientRect(); return box.right > wide + 1 || box.left < -1; });
const cut = shown.filter((one) => one.scrollWidth > one.clientWidth + 1 && one.clientWidth && getComputedStyle(one).display !== "inline");
return [...beyond, ...cut].map((one) => `${one.tagName}#${one.id}.${one.className} ${one.textContent.slice(0, 40)}`);
"""


class Browser:
    """Chromium without a window, and a page in it."""

    def __init__(self, page: pathlib.Path, is_script: bool = True) -> None:
        """A page that says by a script when it is ready, or one without a script."""
        self.page, self.is_script = page, is_script
        from selenium import webdriver
        from selenium.webdriver.chrome.service import Service
        options = webdriver.ChromeOptions()
        for word in ("--headless=new", "--no-sandbox", "--disable-gpu", "--disable-dev-shm-usage"):
            options.add_argument(word)
        options.binary_location = "/usr/bin/chromium"
        options.set_capability("goog:loggingPrefs", {"browser": "ALL"})
        self.driver: Any = webdriver.Chrome(service=Service("/usr/bin/chromedriver"), options=options)
        self.driver.set_script_timeout(MOST_SECONDS)
        self.driver.set_page_load_timeout(MOST_SECONDS)

    def tell(self, command: str, **words: object) -> Any:
        return self.driver.execute_cdp_cmd(command, words)

    def run(self, script: str, *words: object) -> Any:
        return self.driver.execute_script(script, *words)

    def open(self, fragment: str = "", language: str = "en", scheme: str = "light", width: int = 1280) -> None:
        self.tell("Emulation.setLocaleOverride", locale=language)
        self.tell("Emulation.setUserAgentOverride", userAgent="test", acceptLanguage=language)
        self.tell("Emulation.setEmulatedMedia", features=[{"name": "prefers-color-scheme", "value": scheme}])
        self.tell("Emulation.setDeviceMetricsOverride", width=width, height=900, deviceScaleFactor=1, mobile=False)
        self.driver.get("about:blank")
        self.driver.get(self.page.as_uri() + (f"#{fragment}" if fragment else ""))
        if self.is_script:
            self.until_ready()

    def until_ready(self) -> None:
        end = time.monotonic() + MOST_SECONDS
        while not self.run("return document.documentElement.dataset.ready || !document.getElementById('refused').hidden;"):
            wants(time.monotonic() < end, "the page isn't ready")
            time.sleep(0.05)

    def decode(self, text: str) -> str:
        """Decodes a text as who presses the button does. Returns what the page says of it."""
        # (in the script, since the driver takes no lone surrogates as words)
        self.run(f"document.getElementById('input').value = {json.dumps(text)}; document.getElementById('form').requestSubmit();")
        return self.said()

    def said(self) -> str:
        return str(self.run("return document.getElementById('said').textContent;"))

    def shown(self) -> str:
        return str(self.run("return document.getElementById('frames').innerText;"))

    def focus(self) -> str:
        """The element that the keyboard is at: its id, or its tag."""
        return str(self.run("return document.activeElement.id || document.activeElement.tagName;"))

    def press(self, *keys: str) -> None:
        from selenium.webdriver.common.action_chains import ActionChains
        for key in keys:
            ActionChains(self.driver).send_keys(key).perform()

    def errors(self) -> list[str]:
        """What the browser logged as errors since the last call."""
        return [one["message"] for one in self.driver.get_log("browser") if one["level"] == "SEVERE"]

    def has_both_languages(self) -> None:
        """Both languages have each word."""
        deep = "const deep = (one) => Object.entries(one).map(([k, v]) => [k, typeof v === 'object' ? deep(v) : typeof v]); "
        english, german = json.loads(self.run(f"{deep} return JSON.stringify([deep(WORDS.en), deep(WORDS.de)]);"))
        wants(english == german, "the languages have other words")

    def known(self) -> list[tuple[str, str]]:
        """What a screen reader gets: role and name of each element."""
        nodes = self.tell("Accessibility.getFullAXTree")["nodes"]
        return [(one.get("role", {}).get("value"), one.get("name", {}).get("value", "")) for one in nodes if not one.get("ignored")]

    def looks_well(self, look: str) -> None:
        """Nothing is wider than the window, and each text has contrast."""
        wants(not self.run(OUTSIDE), f"{look}: {self.run(OUTSIDE)[:3]}")
        wants(not self.run(CONTRAST, LEAST_CONTRAST), f"{look}: {self.run(CONTRAST, LEAST_CONTRAST)[:5]}")

    def keep_picture(self, file: pathlib.Path, width: int) -> None:
        file.parent.mkdir(parents=True, exist_ok=True)
        height = self.run("return document.documentElement.scrollHeight;")
        self.tell("Emulation.setDeviceMetricsOverride", width=width, height=height, deviceScaleFactor=1, mobile=False)
        self.driver.save_screenshot(str(file))


def each_look() -> Any:
    """Each language, scheme and width."""
    return itertools.product(LANGUAGES, SCHEMES, WIDTHS)
