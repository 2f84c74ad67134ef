"""A Chromium that tests drive: it loads a page, runs scripts on it, and keeps what its console and its network say."""

import json
import os
import time

from selenium import webdriver
from selenium.common.exceptions import WebDriverException
from selenium.webdriver.chrome.service import Service

from tools import DRIVER

WORDS = ["--headless=new", "--disable-gpu", "--disable-dev-shm-usage", "--window-size=1500,1000", "--force-color-profile=srgb"]
WORDS += ["--no-first-run", "--disable-extensions", "--disable-background-networking", "--disable-component-update", "--disable-sync"]
PATIENCE = 60  # seconds until a page that is not ready is a failure


def started(options):
    """A driver with its browser. On a busy machine the first start may take longer than the driver waits."""
    for _ in range(2):
        try:
            return webdriver.Chrome(service=Service(DRIVER), options=options)
        except WebDriverException:
            time.sleep(2)
    return webdriver.Chrome(service=Service(DRIVER), options=options)


class Browser:
    def __init__(self, saved):
        options = webdriver.ChromeOptions()
        for word in [*WORDS, *(["--no-sandbox"] if os.geteuid() == 0 else [])]:
            options.add_argument(word)
        options.set_capability("goog:loggingPrefs", {"browser": "ALL", "performance": "ALL"})
        options.add_experimental_option("perfLoggingPrefs", {"enableNetwork": True, "enablePage": False})
        self.driver = started(options)
        self.driver.set_script_timeout(3 * PATIENCE)
        self.saved = saved
        self.driver.execute_cdp_cmd("Browser.setDownloadBehavior", {"behavior": "allow", "downloadPath": str(saved)})

    def load(self, page):
        """Loads the file of a page, and waits until it has read its texts. Answers whether it could."""
        self.driver.get(page.as_uri())
        return self.wait("return document.documentElement.dataset.ready") == "yes"

    def wait(self, script, *values):
        """The first answer of the script that is true."""
        begun = time.monotonic()
        while time.monotonic() < begun + PATIENCE:
            answer = self.run(script, *values)
            if answer:
                return answer
            time.sleep(0.01)
        raise TimeoutError(f"no answer within {PATIENCE} seconds: {script}")

    def run(self, script, *values):
        return self.driver.execute_script(script, *values)

    def command(self, name, **values):
        """A command of Chromium's own protocol."""
        return self.driver.execute_cdp_cmd(name, values)

    def faults(self):
        """What the console said since the last call that is no mere note."""
        return [entry["message"] for entry in self.driver.get_log("browser") if entry["level"] in ("SEVERE", "WARNING")]

    def requests(self):
        """The addresses that were asked for since the last call."""
        said = [json.loads(entry["message"])["message"] for entry in self.driver.get_log("performance")]
        return [event["params"]["request"]["url"] for event in said if event["method"] == "Network.requestWillBeSent"]

    def quit(self):
        self.driver.quit()
