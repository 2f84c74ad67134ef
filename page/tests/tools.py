"""What the tests need of the machine, by the packages of Debian that have it."""

import importlib.util
import shutil

CHROMIUM, DRIVER = shutil.which("chromium"), shutil.which("chromedriver")
FIREFOX = shutil.which("firefox-esr") or shutil.which("firefox")


def missing_packages():
    there = {
        "graphviz": shutil.which("dot"),
        "chromium": CHROMIUM,
        "chromium-driver": DRIVER,
        "python3-selenium": importlib.util.find_spec("selenium"),
    }
    return [package for package, found in there.items() if not found]
