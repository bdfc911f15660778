"""A browser for tests: chromium by selenium (Debian: chromium, chromium-driver, python3-selenium)."""
import base64
import time
from collections.abc import Callable
from pathlib import Path
from typing import Any

from selenium import webdriver
from selenium.common.exceptions import StaleElementReferenceException
from selenium.webdriver.chrome.options import Options
from selenium.webdriver.chrome.service import Service
from selenium.webdriver.common.action_chains import ActionChains
from selenium.webdriver.common.by import By
from selenium.webdriver.common.keys import Keys

DRIVER = "/usr/bin/chromedriver"
OPTIONS = ["--headless=new", "--no-sandbox", "--disable-gpu", "--hide-scrollbars", "--window-size=1400,900"]
READY = "return document.querySelector('#loading:not([hidden])') === null && !!window.rosm && !!window.rosm.player"


class Browser:
    def __init__(self) -> None:
        options = Options()
        for option in OPTIONS:
            options.add_argument(option)
        options.set_capability("goog:loggingPrefs", {"browser": "ALL"})
        self.driver = webdriver.Chrome(service=Service(DRIVER), options=options)
        self.driver.set_script_timeout(120)

    def quit(self) -> None:
        self.driver.quit()

    def size(self, width: int, height: int) -> None:
        metrics = {"width": width, "height": height, "deviceScaleFactor": 1, "mobile": False}
        self.driver.execute_cdp_cmd("Emulation.setDeviceMetricsOverride", metrics)

    def prefer(self, name: str, value: str) -> None:
        self.driver.execute_cdp_cmd("Emulation.setEmulatedMedia", {"features": [{"name": name, "value": value}]})

    def open(self, page: Path, hash: str = "", query: str = "", size: tuple[int, int] = (1400, 900), ready: str = READY) -> None:
        self.size(*size)
        self.driver.get("about:blank")
        self.driver.get(f"file://{page}{query}{hash}")
        if not self.until(lambda: self.js(ready), 60):
            raise AssertionError(f"{page.name} isn't ready: {self.js('return document.body.innerText')[:300]}")
        time.sleep(0.3)

    def js(self, code: str, *values: Any) -> Any:
        return self.driver.execute_script(code, *values)

    def until(self, holds: Callable[[], Any], seconds: float = 10) -> bool:
        end = time.monotonic() + seconds
        while time.monotonic() < end:
            try:
                if holds():
                    return True
            except StaleElementReferenceException:
                pass                       # it was drawn anew in between
            time.sleep(0.05)
        return False

    def keys(self, *keys: str) -> None:
        ActionChains(self.driver).send_keys(*keys).perform()

    def tab_to(self, id: str, most: int = 60) -> bool:
        """Presses Tab until the element of that id has the focus; answers whether it gets it."""
        for _ in range(most):
            if self.js("return document.activeElement.id") == id:
                return True
            self.keys(Keys.TAB)
        return False

    def one(self, css: str) -> Any:
        return self.driver.find_element(By.CSS_SELECTOR, css)

    def all(self, css: str) -> list[Any]:
        return self.driver.find_elements(By.CSS_SELECTOR, css)

    def text(self, css: str) -> str:
        return self.one(css).text

    def log(self) -> list[str]:
        return [entry["message"] for entry in self.driver.get_log("browser")]

    def step(self) -> int:
        return self.js("const p = rosm.player; return p.trace.stepOf[p.moment]")

    def moment(self) -> int:
        return self.js("return rosm.player.moment")

    def go(self, moment: int) -> None:
        self.js("rosm.player.go(arguments[0])", moment)

    def picture(self, path: Path) -> None:
        made = self.driver.execute_cdp_cmd("Page.captureScreenshot", {})
        path.write_bytes(base64.b64decode(made["data"]))

    def print_pages(self) -> bytes:
        return base64.b64decode(self.driver.execute_cdp_cmd("Page.printToPDF", {"printBackground": True})["data"])
