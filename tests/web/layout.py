#!/usr/bin/env python3
"""Checks the layout of bindings/web/index.html and its use by keyboard, in Chromium: at three widths, in light and
dark, with forced colors, and zoomed to 200 %.

    tests/web/layout.py              prints what is wrong
    tests/web/layout.py FOLDER       also writes a screenshot of each state

The exit status is 3 if chromedriver is missing.
"""

import base64
import sys
from pathlib import Path

from driver import Driver, is_installed
from diagnoses import FAILING_FOLDER, OPEN_SCRIPT, PAGE

# A window of 1,400 pixels zoomed to 200 % has the layout of 700 pixels.
WIDTHS = ((1400, 900), (800, 900), (700, 450), (375, 780))
SCHEMES = (("light", "none"), ("dark", "none"), ("light", "active"))
ROW_HEIGHT = 26
NARROW_WIDTH = 1000

MEASURE_SCRIPT = """
const box = (id) => {
    const { top, bottom, left, right, height, width } = document.getElementById(id).getBoundingClientRect();
    return { top, bottom, left, right, height, width };
};
const row = document.querySelector(".row[aria-selected=true]");
const says = row?.querySelector(".says").getBoundingClientRect() ?? { width: 0 };
arguments[0]({
    scroller: box("scroller"), detail: box("detail"), card: box("diagnosis"), says: says.width,
    mark: row?.querySelector(".finding")?.textContent ?? "", isWider: document.documentElement.scrollWidth > innerWidth,
});
"""
FOCUS_SCRIPT = "arguments[0](document.activeElement.id || document.activeElement.tagName)"
SELECTED_ROW_SCRIPT = """
const row = document.querySelector(".row[aria-selected=true]");
arguments[0]([row?.firstChild.textContent, row?.getAttribute("aria-level"), row?.getAttribute("aria-expanded"),
    document.querySelectorAll(".row[role=treeitem]").length]);
"""


def open_log(driver, name):
    """Opens a failing example in a new page, and waits for the card."""
    driver.open(PAGE.as_uri())
    driver.wait_for("document.documentElement.dataset.ready")
    data = (FAILING_FOLDER / f"{name}.log").read_bytes()
    driver.run(OPEN_SCRIPT, f"{name}.log", base64.b64encode(data).decode())
    driver.wait_for("document.getElementById('diagnosis').dataset.level")
    driver.run("requestAnimationFrame(() => requestAnimationFrame(() => arguments[0]()))")


def press_key(driver, key):
    """Presses a key. Tab moves the focus only with its Windows virtual key code."""
    codes = {"windowsVirtualKeyCode": 9} if key == "Tab" else {}
    for kind in ("keyDown", "keyUp"):
        driver.send_devtools_command("Input.dispatchKeyEvent", type=kind, key=key, code=key, **codes)


def iter_layout_errors(driver, width, height):
    """Yields what is wrong with the layout."""
    seen = driver.run(MEASURE_SCRIPT)
    where = f"{width} x {height}"
    if seen["isWider"]:
        yield f"{where}: the page is wider than the window"
    if seen["scroller"]["height"] < 3 * ROW_HEIGHT:
        yield f"{where}: the list has {seen['scroller']['height']} pixels"
    if seen["detail"]["height"] < 2 * ROW_HEIGHT:
        yield f"{where}: the detail has {seen['detail']['height']} pixels"
    is_below = seen["detail"]["top"] >= seen["scroller"]["bottom"] - 1
    if is_below != (width < NARROW_WIDTH):
        yield f"{where}: the detail is {'below' if is_below else 'beside'} the list"
    if seen["says"] < 0.45 * min(width, NARROW_WIDTH):
        yield f"{where}: a row's text has {seen['says']} pixels"
    if "at fault" not in seen["mark"]:
        yield f"{where}: the row isn't marked in words"


def iter_errors_of_all_layouts(driver, folder):
    """Yields what is wrong at each width and scheme. Writes screenshots to a folder, if one is given."""
    for width, height in WIDTHS:
        for scheme, forced in SCHEMES:
            driver.send_devtools_command(
                "Emulation.setDeviceMetricsOverride", width=width, height=height, deviceScaleFactor=1, mobile=False
            )
            features = [
                {"name": "prefers-color-scheme", "value": scheme},
                {"name": "forced-colors", "value": forced},
            ]
            driver.send_devtools_command("Emulation.setEmulatedMedia", features=features)
            open_log(driver, "stale_sign_count")
            yield from iter_layout_errors(driver, width, height)
            if folder:
                image = driver.send_devtools_command("Page.captureScreenshot", format="png")["data"]
                Path(folder, f"{width}_{scheme}_{forced}.png").write_bytes(base64.b64decode(image))


def iter_keyboard_errors(driver):
    """Yields what is wrong with the use by keyboard."""
    open_log(driver, "wrong_rp_id")
    driver.run("document.getElementById('open').focus(); arguments[0]()")
    for key, expected in (("ArrowRight", "example"), ("ArrowLeft", "open"), ("ArrowLeft", "menu-button")):
        press_key(driver, key)
        if (focused := driver.run(FOCUS_SCRIPT)) != expected:
            yield f"{key} in the toolbar moves to {focused}, not {expected}"
    driver.run("document.getElementById('scroller').focus(); arguments[0]()")
    steps = (
        ("", ["32", "2", None, 6]),
        ("ArrowLeft", ["32", "1", "true", 6]),
        ("ArrowLeft", ["32", "1", "false", 3]),
        ("ArrowUp", ["4", "1", "false", 3]),
        ("ArrowRight", ["4", "1", "true", None]),
        ("ArrowDown", ["4", "2", None, None]),
    )
    for key, expected in steps:
        if key:
            press_key(driver, key)
            driver.run("requestAnimationFrame(() => arguments[0]())")
        selected = driver.run(SELECTED_ROW_SCRIPT)
        if expected[3] is None:
            selected[3] = None
        if selected != expected:
            yield f"after {key or 'opening'} the selected row is {selected}, not {expected}"


def main():
    if not is_installed():
        print("tests/web: chromedriver is missing (apt-get install chromium-driver)", file=sys.stderr)
        return 3
    with Driver() as driver:
        wrong = [
            *iter_errors_of_all_layouts(driver, sys.argv[1] if len(sys.argv) > 1 else ""),
            *iter_keyboard_errors(driver),
        ]
    print("\n".join([*wrong, f"{'FAILED' if wrong else 'ok'}  layout and keyboard"]))
    return 1 if wrong else 0


if __name__ == "__main__":
    sys.exit(main())
