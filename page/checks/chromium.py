"""Chromium without a window, and WebKit where its driver and a display are there, by selenium."""
import base64
import json
import os
import shutil
import tempfile
from urllib.parse import urlsplit


class Chromium:
    """A browser with a fresh profile; its driver takes a free port. It ends with `quit`."""
    name = "Chromium"

    @staticmethod
    def program() -> str | None:
        return shutil.which("chromium") if shutil.which("chromedriver") else None

    def __init__(self) -> None:
        from selenium import webdriver
        from selenium.webdriver.chrome.options import Options
        from selenium.webdriver.chrome.service import Service
        self.profile = tempfile.mkdtemp(prefix="page-check-")
        options = Options()
        options.binary_location = self.program()
        for word in ["--headless=new", "--disable-gpu", "--disable-dev-shm-usage", "--no-first-run", f"--user-data-dir={self.profile}"]:
            options.add_argument(word)
        if os.geteuid() == 0:
            options.add_argument("--no-sandbox")
        options.set_capability("goog:loggingPrefs", {"performance": "ALL"})
        self.driver = webdriver.Chrome(service=Service(shutil.which("chromedriver")), options=options)
        self.driver.set_script_timeout(300)
        self.version = self.driver.capabilities["browserVersion"]

    def open(self, url: str) -> None:
        self.driver.get_log("performance")
        self.driver.get(url)

    def run(self, script: str, *words: object) -> object:
        """What a script returns, or the promise that it returns comes to."""
        return self.driver.execute_script(script, *words)

    def act(self, actions: list[dict]) -> None:
        """Pointer and keys, as WebDriver writes them."""
        self.driver.execute("actions", {"actions": actions})

    def requests(self) -> list[str]:
        """What the page asked for, beside itself."""
        page, asked = self.driver.current_url, []
        for entry in self.driver.get_log("performance"):
            message = json.loads(entry["message"])["message"]
            if message["method"] == "Network.requestWillBeSent" and message["params"]["documentURL"] == page:
                asked.append(message["params"]["request"]["url"])
        return [url for url in asked if urlsplit(url).scheme not in ("blob", "data") and url != page]

    def size(self, width: int, height: int) -> None:
        self.driver.execute_cdp_cmd("Emulation.setDeviceMetricsOverride", {"width": width, "height": height, "deviceScaleFactor": 1, "mobile": False})

    def picture(self, path: str, width: int, height: int) -> None:
        self.size(width, height)
        self.driver.save_screenshot(path)

    def forced_colours(self, is_so: bool) -> None:
        """Whether the page is looked at in the colours that somebody forces on all pages."""
        self.driver.execute_cdp_cmd("Emulation.setEmulatedMedia", {"features": [{"name": "forced-colors", "value": "active" if is_so else "none"}]})

    def printed(self) -> bytes:
        """The page as it is printed, as PDF."""
        return base64.b64decode(self.driver.execute_cdp_cmd("Page.printToPDF", {"paperWidth": 8.27, "paperHeight": 11.69})["data"])

    def quit(self) -> None:
        self.driver.quit()
        shutil.rmtree(self.profile, ignore_errors=True)


class WebKit(Chromium):
    """The browser of webkit2gtk, which needs a display."""
    name = "WebKit"

    @staticmethod
    def program() -> str | None:
        return shutil.which("WebKitWebDriver") if os.environ.get("DISPLAY") else None

    def __init__(self) -> None:
        from selenium import webdriver
        from selenium.webdriver.webkitgtk.options import Options
        options = Options()
        options.binary_location = next(path for path in ("/usr/lib/x86_64-linux-gnu/webkit2gtk-4.1/MiniBrowser", "/usr/lib/x86_64-linux-gnu/webkit2gtk-4.0/MiniBrowser")
                                       if os.path.exists(path))
        options.add_argument("--automation")
        self.driver = webdriver.WebKitGTK(executable_path=self.program(), options=options)
        self.driver.set_script_timeout(300)
        self.version = self.driver.capabilities["browserVersion"]

    def open(self, url: str) -> None:
        self.driver.get(url)

    def requests(self) -> list[str]:
        return self.run("return performance.getEntriesByType('resource').map(({name}) => name)")

    def size(self, width: int, height: int) -> None:
        self.driver.set_window_size(width, height)

    def quit(self) -> None:
        self.driver.quit()
