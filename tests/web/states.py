#!/usr/bin/env python3
"""Puts bindings/web/index.html in each of its states in Chromium, and checks what readers need: that nothing overlaps,
is cut off, faint or wider than the window, that roles and names are right, and that the state's own conditions hold.

    tests/web/states.py                      prints what is wrong
    tests/web/states.py FOLDER [NAME ..]     also writes a screenshot of each state, or of those named

The exit status is 3 if chromedriver is missing.
"""

from __future__ import annotations

import base64
import sys
import tempfile
from pathlib import Path
from typing import Any, Callable, Dict, Iterator, List, NamedTuple, Tuple

from diagnoses import CAPTURES, FAILING_FOLDER, OPEN_SCRIPT, PAGE, TOP
from driver import Driver, is_installed
from layout import press_key

FACTS_SCRIPT = Path(__file__).with_name("page_facts.js").read_text(encoding="utf-8")
EXAMPLES = TOP / "examples"
DESKTOP, NARROW, PHONE = (1400, 900), (800, 900), (375, 780)
# A window of 1,400 x 900 pixels, zoomed to 200 %, has the layout of half of it.
ZOOMED = (700, 450)

GENERAL_SCRIPT = (
    FACTS_SCRIPT
    + """
const isForced = matchMedia("(forced-colors: active)").matches;
arguments[0]([...isForced ? [] : pageFacts.findLowContrastTexts(window).map((text) => `faint: ${text}`),
    ...pageFacts.findOverlaps(window).map((text) => `overlap: ${text}`), ...pageFacts.findCutOffTexts(window),
    ...pageFacts.findRoleErrors(window)]);
"""
)
FOCUS_SCRIPT = FACTS_SCRIPT + "arguments[0](pageFacts.describeFocus(window));"
PASTE_SCRIPT = """
const data = new DataTransfer();
data.setData("text", arguments[0]);
document.body.dispatchEvent(new ClipboardEvent("paste", { clipboardData: data, bubbles: true }));
arguments[1]();
"""
OPEN_TWO_SCRIPT = """
const files = new DataTransfer();
arguments[0].forEach(([name, text]) => files.items.add(new File([hidlogBytes.fromBase64(text)], name)));
document.dispatchEvent(new DragEvent("drop", { dataTransfer: files, cancelable: true }));
arguments[1]();
"""
# Drops a log of ticks, which takes a while to read.
OPEN_LONG_SCRIPT = """
const files = new DataTransfer();
files.items.add(new File(["t 1\\n".repeat(8 * 1024 * 1024)], "long.log"));
document.dispatchEvent(new DragEvent("drop", { dataTransfer: files, cancelable: true }));
arguments[0]();
"""
FRAMES_SCRIPT = "requestAnimationFrame(() => requestAnimationFrame(() => arguments[0]()))"


class State(NamedTuple):
    """A state of the page: its name, its window, how to get there, and JavaScript expressions that must be true then."""

    name: str
    size: Tuple[int, int]
    enter: Callable[[Any], None]
    facts: Tuple[str, ...]
    scheme: str = "light"
    forced: str = "none"


def click(driver: Any, element: str) -> None:
    """Clicks an element by its ID."""
    driver.run(f"document.getElementById('{element}').click(); arguments[0]()")


def drop_file(driver: Any, path: Path) -> None:
    """Drops a file on the page."""
    driver.run(OPEN_SCRIPT, path.name, base64.b64encode(path.read_bytes()).decode())


def make_file_opener(path: Path) -> Callable[[Any], None]:
    """Returns a function that opens a file, and waits for its diagnosis."""

    def enter(driver: Any) -> None:
        drop_file(driver, path)
        driver.wait_for("document.getElementById('diagnosis').dataset.level")

    return enter


open_stale = make_file_opener(FAILING_FOLDER / "stale_sign_count.log")


def open_long(driver: Any) -> None:
    """Begins to open a long log."""
    driver.run(OPEN_LONG_SCRIPT)
    driver.wait_for("!document.getElementById('progress').hidden")


def cancel_long(driver: Any) -> None:
    """Begins to open a long log, and cancels it."""
    open_long(driver)
    click(driver, "cancel")


def open_example(driver: Any) -> None:
    """Opens the page's own example."""
    click(driver, "example")
    driver.wait_for("document.getElementById('diagnosis').dataset.level")


def make_text_opener(name: str, text: str) -> Callable[[Any], None]:
    """Returns a function that opens a text."""

    def enter(driver: Any) -> None:
        with tempfile.TemporaryDirectory() as folder:
            path = Path(folder, name)
            path.write_text(text, encoding="ascii")
            make_file_opener(path)(driver)

    return enter


def refuse_paste(driver: Any) -> None:
    """Pastes a log over another one, and answers the question with no."""
    open_stale(driver)
    text = (EXAMPLES / "registration.log").read_text(encoding="ascii")
    driver.run(
        f"globalThis.confirm = (question) => {{ globalThis.asked = question; return false; }}; {PASTE_SCRIPT}", text
    )


def make_pair_opener(name: str, other: str) -> Callable[[Any], None]:
    """Returns a function that opens two failing examples side by side."""

    def enter(driver: Any) -> None:
        files = [
            [f"{each}.log", base64.b64encode((FAILING_FOLDER / f"{each}.log").read_bytes()).decode()]
            for each in (name, other)
        ]
        driver.run(OPEN_TWO_SCRIPT, files)
        driver.wait_for("hidlogViewer.state.isComparing && document.getElementById('diagnosis').dataset.level")

    return enter


def open_saved(driver: Any) -> None:
    """Saves the page with a log, and opens what was saved."""
    open_stale(driver)
    text = driver.run("hidlogSave.makePage(hidlogViewer.state).then(arguments[0])")
    with tempfile.TemporaryDirectory() as folder:
        path = Path(folder, "saved.html")
        path.write_text(text, encoding="utf-8")
        driver.open(path.as_uri())
        driver.wait_for("document.documentElement.dataset.ready")
        driver.wait_for("document.getElementById('diagnosis').dataset.level")


SELECT_SCRIPT = """
const rows = [...document.querySelectorAll("#space .row")];
rows.find((row) => row.textContent.includes(arguments[0])).click();
arguments[1]();
"""
CHOOSE_SCRIPT = """
const items = [...document.querySelectorAll(".fields [role=treeitem]")];
items.find((item) => item.textContent.trim().startsWith(arguments[0])).click();
arguments[1]();
"""


def select_registration(driver: Any) -> None:
    """Selects a transaction."""
    make_file_opener(FAILING_FOLDER / "wrong_rp_id.log")(driver)
    driver.run(SELECT_SCRIPT, "Registration: done")


def select_field(driver: Any) -> None:
    """Selects a field of a message, whose bytes are in two packets."""
    select_registration(driver)
    driver.run(CHOOSE_SCRIPT, "-2 x:")


def show_drawing(driver: Any) -> None:
    """Shows a session with a long pause as a drawing."""
    text = (EXAMPLES / "sign_in.log").read_text(encoding="ascii")
    for before in ("> 400 ", "p 410 ", "s 420 "):
        text = text.replace(before, f"{before[:2]}60{before[2:]}")
    make_text_opener("pause.log", text)(driver)
    click(driver, "drawing-tab")
    driver.wait_for("hidlogViewer.state.layout.scale > 0")


def darken_drawing(driver: Any) -> None:
    """Shows a session as a drawing, and then changes the colour scheme to dark."""
    show_drawing(driver)
    set_look(driver, DESKTOP, "dark", "none")


def make_search(text: str) -> Callable[[Any], None]:
    """Returns a function that searches a log for a text."""

    def enter(driver: Any) -> None:
        open_stale(driver)
        driver.run(
            "const field = document.getElementById('search'); field.value = arguments[0];"
            "field.dispatchEvent(new Event('input')); arguments[1]()",
            text,
        )
        driver.wait_for("/^\\d+ of /.test(document.getElementById('count').textContent)")

    return enter


def open_menu(driver: Any) -> None:
    """Opens the menu by the keyboard."""
    open_stale(driver)
    driver.run("document.getElementById('menu-button').focus(); arguments[0]()")
    press_key(driver, "ArrowDown")


def show_keys(driver: Any) -> None:
    """Opens the dialog with the keyboard shortcuts."""
    open_stale(driver)
    click(driver, "menu-button")
    click(driver, "keys")


def walk_by_keyboard(driver: Any) -> None:
    """Goes by Tab through all controls to the fields and their bytes, and selects a field, by the keyboard alone."""
    open_stale(driver)
    driver.run("document.activeElement.blur(); arguments[0]()")
    seen: List[Dict[str, Any]] = []
    for _ in range(40):
        press_key(driver, "Tab")
        seen.append(driver.run(FOCUS_SCRIPT))
        if seen[-1]["id"] == "hex":
            break
    driver.run("globalThis.walked = arguments[0]; arguments[1]()", seen)
    driver.run("document.querySelector('.fields').focus(); arguments[0]()")
    for _ in range(9):
        press_key(driver, "ArrowDown")


KEYBOARD_STOPS = ("open", "example", "view", "menu-button", "search", "channel", "fold", "scroller", "copy-text", "hex")
CARD = "document.getElementById('diagnosis').dataset"
SELECTED_ROW = "document.querySelector('.row[aria-selected=true]')"
MARKED_ROW = f"{SELECTED_ROW}.querySelector('.finding').textContent === 'key at fault'"
KEY_AT_FAULT = (f"{CARD}.side === 'key' && {CARD}.line === '66'", MARKED_ROW)
# The card's title and the selected row are inside the window.
IN_SIGHT = tuple(
    f"document.querySelector('{element}').getBoundingClientRect().{fact}"
    for element in ("#diagnosis h2", ".row[aria-selected=true]")
    for fact in ("top >= 0", "bottom <= innerHeight")
)
# The drawing has dark and bright points.
HAS_DARK_ON_BRIGHT = """(() => {
    const { data } = drawing.getContext("2d").getImageData(0, 0, drawing.width, drawing.height);
    const points = Array.from({ length: data.length / 4 }, (_, at) => (data[4 * at + 3] > 200 ? data[4 * at] : 128));
    return points.filter((point) => point < 60).length > 100 && points.filter((point) => point > 200).length > 100;
})()"""
HAS_NO_FAULT = (f"{CARD}.side === 'none'", "!document.querySelector('.finding')")

STATES = (
    State(
        "empty",
        DESKTOP,
        lambda _: None,
        (
            "document.getElementById('empty').checkVisibility()",
            "document.getElementById('download').disabled && document.getElementById('detail').hidden",
        ),
    ),
    State("example", DESKTOP, open_example, (*HAS_NO_FAULT, "!document.getElementById('detail').hidden")),
    State(
        "failing", DESKTOP, open_stale, (*KEY_AT_FAULT, *IN_SIGHT, "document.querySelectorAll('.byte').length === 256")
    ),
    State(
        "capture",
        DESKTOP,
        make_file_opener(CAPTURES / "python_cancel.pcapng"),
        (*HAS_NO_FAULT, "document.getElementById('detail-title').textContent.startsWith('Registration: cancelled')"),
    ),
    State(
        "fine",
        DESKTOP,
        make_file_opener(EXAMPLES / "sign_in.log"),
        (
            *HAS_NO_FAULT,
            "document.getElementById('diagnosis').textContent.includes('The log matches the key')",
            "document.getElementById('diagnosis').textContent.includes(' 0 MUST violations, 0 SHOULD violations.')",
        ),
    ),
    State(
        "loading",
        DESKTOP,
        open_long,
        (
            "document.getElementById('cancel').checkVisibility()",
            "document.getElementById('progress-text').textContent.startsWith('Reading long.log')",
            "document.querySelector('#space .row').checkVisibility({ checkVisibilityCSS: true })",
        ),
    ),
    State(
        "cancelled",
        DESKTOP,
        cancel_long,
        (
            "document.getElementById('progress').hidden",
            "/^long\\.log: cancelled\\. The first \\d+ lines are shown; /"
            ".test(document.getElementById('notice').textContent)",
        ),
    ),
    State(
        "not_a_log",
        DESKTOP,
        make_text_opener("words.txt", "what is this\n"),
        (f"{CARD}.side === 'capture'", "document.getElementById('notice').className === 'fault'"),
    ),
    State(
        "paste", DESKTOP, refuse_paste, (*KEY_AT_FAULT, "asked === 'Replace stale_sign_count.log by the pasted text?'")
    ),
    State(
        "two_logs",
        DESKTOP,
        make_pair_opener("stale_sign_count", "wrong_rp_id"),
        (
            "document.querySelector('.pair[aria-selected=true] .word').textContent === '≠ other bytes'",
            "document.getElementById('two-summary').textContent.startsWith('First difference: line 32 ')",
            "document.querySelectorAll('.pair[aria-selected=true] .number').length === 2",
        ),
    ),
    State(
        "saved", DESKTOP, open_saved, (*KEY_AT_FAULT, "!document.querySelector('script[src], link[rel=stylesheet]')")
    ),
    State(
        "detail",
        DESKTOP,
        select_registration,
        (
            "document.querySelector('.fields [aria-level=\"4\"]')",
            "document.getElementById('detail-title').textContent.startsWith('Registration: done at example.com')",
        ),
    ),
    State(
        "bytes",
        DESKTOP,
        select_field,
        (
            "document.querySelectorAll('.byte.marked').length === 35",
            "document.getElementById('hex-status').textContent.startsWith('35 bytes: line 27')",
            "document.querySelector('.fields [aria-selected=true]').textContent.trim().startsWith('-2 x')",
        ),
    ),
    State(
        "menu",
        DESKTOP,
        open_menu,
        (
            "document.activeElement.id === 'compare'",
            "document.getElementById('menu').getBoundingClientRect().right <= innerWidth",
        ),
    ),
    State("keys", DESKTOP, show_keys, ("document.getElementById('keys-dialog').open",)),
    State(
        "drawing",
        DESKTOP,
        show_drawing,
        (
            "!document.getElementById('drawing').hidden",
            "hidlogViewer.state.rows.some((_, place) => hidlogViewer.state.layout.pause(place).isCut)",
        ),
    ),
    State("search", DESKTOP, make_search("signcount"), ("document.querySelectorAll('#space .row').length > 0",)),
    State(
        "nothing_found",
        DESKTOP,
        make_search("no such words"),
        ("document.getElementById('count').textContent.startsWith('0 of ')",),
    ),
    State("narrow", NARROW, select_field, ("document.querySelectorAll('.byte.marked').length === 35",)),
    State("phone", PHONE, open_stale, (*KEY_AT_FAULT, *IN_SIGHT), "dark"),
    State(
        "phone_menu",
        PHONE,
        open_menu,
        (
            "document.getElementById('menu').getBoundingClientRect().left >= 0",
            "document.getElementById('menu').getBoundingClientRect().right <= innerWidth",
        ),
        "dark",
    ),
    State(
        "phone_two_logs",
        PHONE,
        make_pair_opener("stale_sign_count", "wrong_rp_id"),
        ("document.querySelector('.pair[aria-selected=true] .word').textContent === '≠ other bytes'",),
    ),
    State(
        "darkened_drawing",
        DESKTOP,
        darken_drawing,
        ("drawing.getContext('2d').getImageData(30, 2, 1, 1).data[0] < 60",),
    ),
    State("forced_drawing", NARROW, show_drawing, (HAS_DARK_ON_BRIGHT,), "light", "active"),
    State("phone_drawing", PHONE, show_drawing, ("!document.getElementById('drawing').hidden",)),
    State(
        "dark",
        DESKTOP,
        select_field,
        ("getComputedStyle(document.body).backgroundColor === 'rgb(20, 23, 28)'",),
        "dark",
    ),
    State(
        "forced_colors",
        DESKTOP,
        select_field,
        (
            "matchMedia('(forced-colors: active)').matches",
            "getComputedStyle(document.querySelector('.byte.marked')).outlineStyle === 'solid'",
        ),
        "light",
        "active",
    ),
    State("forced_colors_dark", PHONE, open_stale, KEY_AT_FAULT, "dark", "active"),
    State("zoomed", ZOOMED, open_stale, (*KEY_AT_FAULT, *IN_SIGHT)),
    State(
        "zoomed_two_logs",
        ZOOMED,
        make_pair_opener("stale_sign_count", "wrong_rp_id"),
        ("document.querySelector('.pair[aria-selected=true]').getBoundingClientRect().height > 0",),
    ),
    State(
        "keyboard",
        DESKTOP,
        walk_by_keyboard,
        (
            "walked.every(({ isMarked, isInSight }) => isMarked && isInSight)",
            f"{list(KEYBOARD_STOPS)!r}.every((name) => walked.some(({{ id }}) => id === name))",
            "document.querySelectorAll('.byte.marked').length > 0",
            *KEY_AT_FAULT,
        ),
    ),
)


# The states of a large window are also checked in these windows, colour schemes and forced colours.
LOOKS = (
    ("dark", DESKTOP, "dark", "none"),
    ("forced", DESKTOP, "light", "active"),
    ("800", NARROW, "light", "none"),
    ("zoomed", ZOOMED, "light", "none"),
    ("375", PHONE, "light", "none"),
    ("375_dark", PHONE, "dark", "none"),
    ("375_forced", PHONE, "dark", "active"),
)


def set_look(driver: Any, size: Tuple[int, int], scheme: str, forced: str) -> None:
    """Sets the window's size, the colour scheme, and whether colours are forced."""
    width, height = size
    driver.send_devtools_command(
        "Emulation.setDeviceMetricsOverride", width=width, height=height, deviceScaleFactor=1, mobile=False
    )
    features = [{"name": "prefers-color-scheme", "value": scheme}, {"name": "forced-colors", "value": forced}]
    driver.send_devtools_command("Emulation.setEmulatedMedia", features=features)


def write_screenshot(driver: Any, path: Path) -> None:
    """Writes a screenshot of the window."""
    path.write_bytes(base64.b64decode(driver.send_devtools_command("Page.captureScreenshot", format="png")["data"]))


def iter_look_errors(driver: Any, state: State, folder: str) -> Iterator[str]:
    """Yields what is wrong with a state of a large window in other windows and colours."""
    if (state.size, state.scheme, state.forced) != (DESKTOP, "light", "none"):
        return
    for name, size, scheme, forced in LOOKS:
        set_look(driver, size, scheme, forced)
        driver.run(FRAMES_SCRIPT)
        for text in driver.run(GENERAL_SCRIPT):
            yield f"{state.name}, {name}: {text}"
        if folder:
            write_screenshot(driver, Path(folder, f"{state.name}_{name}.png"))


def enter_state(driver: Any, state: State) -> None:
    """Puts a new page in a state."""
    set_look(driver, state.size, state.scheme, state.forced)
    driver.open(PAGE.as_uri())
    driver.wait_for("document.documentElement.dataset.ready")
    state.enter(driver)
    driver.run(FRAMES_SCRIPT)


def iter_state_errors(driver: Any, state: State) -> Iterator[str]:
    """Yields what is wrong in a state."""
    for text in driver.run(GENERAL_SCRIPT):
        yield f"{state.name}: {text}"
    for fact in state.facts:
        if not driver.run(f"arguments[arguments.length - 1](Boolean({fact}))"):
            yield f"{state.name}: not true: {fact}"


def main() -> int:
    """Checks all states, or those that are named."""
    if not is_installed():
        print("tests/web: chromedriver is missing (apt-get install chromium-driver)", file=sys.stderr)
        return 3
    folder, *names = sys.argv[1:] or [""]
    wrong: List[str] = []
    with Driver() as driver:
        for state in STATES:
            if names and state.name not in names:
                continue
            enter_state(driver, state)
            wrong += iter_state_errors(driver, state)
            if folder:
                write_screenshot(driver, Path(folder, f"{state.name}.png"))
            wrong += iter_look_errors(driver, state, folder)
    print(
        "\n".join(
            [*wrong, f"{'FAILED' if wrong else 'ok'}  {len(STATES)} states of the page, in {1 + len(LOOKS)} looks"]
        )
    )
    return 1 if wrong else 0


if __name__ == "__main__":
    sys.exit(main())
