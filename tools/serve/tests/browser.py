"""Debian's chromium without a window, driven by its own driver."""
import json
import shutil
from collections.abc import Iterator
from typing import Any

CHROMIUM, DRIVER = "/usr/bin/chromium", "/usr/bin/chromedriver"
_WORDS = ("--headless=new", "--no-sandbox", "--disable-gpu", "--disable-dev-shm-usage", "--disable-background-networking", "--no-first-run")


def lacks() -> str:
    """The packages that are missing, none where a browser can be driven."""
    missing = [] if shutil.which(CHROMIUM) else ["chromium"]
    missing += [] if shutil.which(DRIVER) else ["chromium-driver"]
    try:
        import selenium  # noqa: F401
    except ImportError:
        missing.append("python3-selenium")
    return " ".join(missing)


class Browser:
    """A browser, and what tests ask of a page."""

    def __init__(self, *, has_scripts: bool = True, time_zone: str = "Asia/Kolkata") -> None:
        from selenium import webdriver
        from selenium.webdriver.chrome.options import Options
        from selenium.webdriver.chrome.service import Service

        options = Options()
        options.binary_location = CHROMIUM
        for word in _WORDS:
            options.add_argument(word)
        if not has_scripts:
            options.add_experimental_option("prefs", {"profile.managed_default_content_settings.javascript": 2})
        options.set_capability("goog:loggingPrefs", {"browser": "ALL"})
        self.driver = webdriver.Chrome(service=Service(DRIVER), options=options)
        self.driver.set_page_load_timeout(60)
        self.driver.execute_cdp_cmd("Emulation.setTimezoneOverride", {"timezoneId": time_zone})
        self.width(1100, 900)

    def close(self) -> None:
        """Ends it."""
        self.driver.quit()

    def width(self, width: int, height: int = 900) -> None:
        """Makes the screen so wide."""
        size = {"width": width, "height": height, "deviceScaleFactor": 1, "mobile": width < 500}
        self.driver.execute_cdp_cmd("Emulation.setDeviceMetricsOverride", size)

    def open(self, address: str) -> None:
        """Opens an address."""
        self.driver.get(address)

    def run(self, script: str, *given: Any) -> Any:
        """What a script gives."""
        return self.driver.execute_script(script, *given)

    def text(self, selector: str = "main") -> str:
        """What the first element of a selector shows, with one space between words; nothing where there is none."""
        return self._said(selector, "innerText")

    def whole(self, selector: str = "main") -> str:
        """What the first element of a selector has, what is closed too."""
        return self._said(selector, "textContent")

    def _said(self, selector: str, how: str) -> str:
        found = self.run("const at = document.querySelector(arguments[0]); return at ? at[arguments[1]] : ''", selector, how)
        return " ".join(str(found).split())

    def count(self, selector: str) -> int:
        """How many elements a selector finds."""
        return len(self.driver.find_elements("css selector", selector))

    def press(self, *keys: str) -> None:
        """Presses keys where the focus is."""
        from selenium.webdriver import ActionChains

        actions = ActionChains(self.driver)
        for key in keys:
            actions.send_keys(key)
        actions.perform()

    def focus(self) -> tuple[str, str]:
        """Tag and text of what has the focus."""
        found = self.run("const at = document.activeElement; return [at.tagName, (at.textContent || at.name || '').trim()]")
        return str(found[0]), str(found[1])

    def names(self) -> Iterator[tuple[str, str]]:
        """Role and name, as a screen reader tells them, of all that can be pressed or written in."""
        tree = self.driver.execute_cdp_cmd("Accessibility.getFullAXTree", {})
        for node in tree["nodes"]:
            role = node.get("role", {}).get("value")
            if role in ("link", "button", "textbox", "searchbox", "slider", "DisclosureTriangle", "combobox") and not node.get("ignored"):
                yield role, str(node.get("name", {}).get("value", ""))

    def complaints(self) -> list[str]:
        """What the browser has to say against the page: errors of scripts, and what the policy held back."""
        said = [json.dumps(entry) for entry in self.driver.get_log("browser") if entry["level"] == "SEVERE"]
        # a stream that was open when its server ended
        return [each for each in said if "/node/events - Failed to load resource: net::ERR_" not in each]
