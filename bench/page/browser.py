"""Headless Chromium, driven by selenium: Debian's packages chromium, chromium-driver and python3-selenium."""
import base64
import os
import shutil
import sys

PYTHON = "/usr/bin/python3"  # the interpreter of Debian's packages
SWITCHES = ["--headless=new", "--no-sandbox", "--disable-gpu", "--disable-dev-shm-usage", "--window-size=1280,900", "--hide-scrollbars"]

try:
    from selenium import webdriver
    from selenium.webdriver.chrome.options import Options
    from selenium.webdriver.chrome.service import Service
    from selenium.webdriver.common.keys import Keys
except ImportError:
    if os.path.exists(PYTHON) and not os.path.samefile(sys.executable, PYTHON) and os.path.isfile(sys.argv[0]):
        os.execv(PYTHON, [PYTHON, "-B", *sys.argv])
    webdriver = Keys = None


class Browser:
    """A browser with one page."""

    def __init__(self):
        options = Options()
        for word in SWITCHES:
            options.add_argument(word)
        options.set_capability("goog:loggingPrefs", {"browser": "ALL", "performance": "ALL"})
        self.driver = webdriver.Chrome(service=Service(shutil.which("chromedriver")), options=options)
        self.driver.set_script_timeout(60)

    @staticmethod
    def missing():
        """Returns the names of what is not installed."""
        found = {"chromium": shutil.which("chromium"), "chromium-driver": shutil.which("chromedriver"), "python3-selenium": webdriver}
        return ", ".join(name for name, it in found.items() if not it)

    def close(self):
        self.driver.quit()

    def width(self, width, height=900):
        metrics = {"width": width, "height": height, "deviceScaleFactor": 1, "mobile": False}
        self.driver.execute_cdp_cmd("Emulation.setDeviceMetricsOverride", metrics)

    def media(self, media="", **features):
        """Emulates a medium, and features such as prefers_color_scheme."""
        listed = [{"name": name.replace("_", "-"), "value": value} for name, value in features.items()]
        self.driver.execute_cdp_cmd("Emulation.setEmulatedMedia", {"media": media, "features": listed})

    def picture(self, width, height):
        """Returns the top of the page as PNG."""
        clip = {"x": 0, "y": 0, "width": width, "height": height, "scale": 1}
        shot = self.driver.execute_cdp_cmd("Page.captureScreenshot", {"format": "png", "captureBeyondViewport": True, "clip": clip})
        return base64.b64decode(shot["data"])
