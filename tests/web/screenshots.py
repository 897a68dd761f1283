#!/usr/bin/env python3
"""Takes the screenshots docs/use/web_light.png and docs/use/web_phone.png of the current page.

    tests/web/screenshots.py

They show the diagnosis of a recorded session whose second sign-in doesn't increase the signature counter. The exit status is 3 if
chromium or chromedriver is missing.
"""

import base64
import sys
from pathlib import Path

from driver import Driver, is_installed

TOP = Path(__file__).resolve().parents[2]
WIDTH, HEIGHT = 1200, 720
PHONE_METRICS = {"width": 390, "height": 780, "deviceScaleFactor": 1, "mobile": True}
LOG = TOP / "examples" / "failing" / "stale_sign_count.log"


def open_log(driver, path):
    """Opens a log in the page as the Open button does."""
    document = driver.send_devtools_command("DOM.getDocument")["root"]["nodeId"]
    node = driver.send_devtools_command("DOM.querySelector", nodeId=document, selector="#file")["nodeId"]
    driver.send_devtools_command("DOM.setFileInputFiles", nodeId=node, files=[str(path)])
    driver.wait_for("document.getElementById('diagnosis').dataset.level")


def write_screenshot(driver, scheme, path):
    """Writes a screenshot in the light or dark color scheme."""
    features = [{"name": "prefers-color-scheme", "value": scheme}]
    driver.send_devtools_command("Emulation.setEmulatedMedia", features=features)
    driver.run("requestAnimationFrame(() => requestAnimationFrame(arguments[0]))")
    result = driver.send_devtools_command("Page.captureScreenshot", format="png")
    path.write_bytes(base64.b64decode(result["data"]))
    print(path.relative_to(TOP))


def main():
    if not is_installed():
        print("screenshots.py: chromedriver is missing (apt-get install chromium-driver)", file=sys.stderr)
        return 3
    with Driver() as driver:
        size = {"width": WIDTH, "height": HEIGHT, "deviceScaleFactor": 1, "mobile": False}
        driver.send_devtools_command("Emulation.setDeviceMetricsOverride", **size)
        driver.open(f"file://{TOP}/bindings/web/index.html")
        open_log(driver, LOG)
        write_screenshot(driver, "light", TOP / "docs" / "use" / "web_light.png")
        driver.send_devtools_command("Emulation.setDeviceMetricsOverride", **PHONE_METRICS)
        driver.open(f"file://{TOP}/bindings/web/index.html")
        open_log(driver, LOG)
        write_screenshot(driver, "dark", TOP / "docs" / "use" / "web_phone.png")
    return 0


if __name__ == "__main__":
    sys.exit(main())
