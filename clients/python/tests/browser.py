"""A browser without a window, for the tests of pages. Python has to have selenium, as Debian's has by python3-selenium."""

from __future__ import annotations

import shutil
from collections.abc import Iterator
from contextlib import contextmanager
from importlib import import_module
from pathlib import Path
from typing import Any

__all__ = ["Browser", "Keys", "browser"]

# As a value of no type: the types of the other modules are checked where selenium isn't there too.
_webdriver: Any = import_module("selenium.webdriver")
_service: Any = import_module("selenium.webdriver.chrome.service")
Keys: Any = _webdriver.Keys

_SELECTOR = "css selector"
_WORDS = ["--headless=new", "--no-sandbox", "--disable-gpu", "--disable-dev-shm-usage", "--hide-scrollbars"]


class Browser:
    """What the tests do with a page: they press its buttons, and read what is shown."""

    def __init__(self, driver: Any) -> None:
        self._driver = driver

    def open(self, page: Path, *, is_dark: bool = False) -> None:
        scheme = {"name": "prefers-color-scheme", "value": "dark" if is_dark else "light"}
        self._driver.execute_cdp_cmd("Emulation.setEmulatedMedia", {"features": [scheme]})
        self._driver.get(page.resolve().as_uri())

    def click(self, selector: str) -> None:
        self._driver.find_element(_SELECTOR, selector).click()

    def press(self, *keys: str) -> None:
        """Presses keys where the focus is."""
        self._driver.switch_to.active_element.send_keys(*keys)

    def text(self, selector: str) -> str:
        return str(self._driver.find_element(_SELECTOR, selector).text)

    def texts(self, selector: str) -> list[str]:
        """The texts of all such elements that are shown."""
        return [str(it.text) for it in self._driver.find_elements(_SELECTOR, selector) if it.is_displayed()]

    def run(self, script: str) -> Any:
        """What a script of the page returns."""
        return self._driver.execute_script(script)

    def complaints(self) -> list[str]:
        """What the browser complained of: errors of scripts, and what the page wasn't allowed."""
        return [entry["message"] for entry in self._driver.get_log("browser")]

    def save(self, picture: Path) -> None:
        self._driver.save_screenshot(str(picture))


@contextmanager
def browser(width: int = 1200, height: int = 820) -> Iterator[Browser]:
    options = _webdriver.ChromeOptions()
    for word in (*_WORDS, f"--window-size={width},{height}"):
        options.add_argument(word)
    options.binary_location = shutil.which("chromium") or ""
    options.set_capability("goog:loggingPrefs", {"browser": "ALL"})
    driver = _webdriver.Chrome(options=options, service=_service.Service(shutil.which("chromedriver") or ""))
    try:
        yield Browser(driver)
    finally:
        driver.quit()
