#!/usr/bin/env python3
"""Tests keys in sessionStorage and localStorage over reload, back and forward, and two tabs that share a key.

Over reload, back and forward, the signature counter increases by one at each sign-in. If two tabs of one browser sign in
at the same time with one key in localStorage, they never skip or repeat a value of the counter. The recordings of the
pages are one log, which `hidlog check` (the program in HIDLOG_PROGRAM) accepts.
"""

import os
import subprocess
import sys
import threading
from http.server import ThreadingHTTPServer

from driver import Driver, is_installed
from serve import TOP, PageHandler

SIGN_IN_SCRIPT = "signIn().then(arguments[0], (error) => arguments[0](String(error)))"
# Returns whether the page was restored from the browser's back/forward cache, with its key in memory.
WAS_RESTORED_SCRIPT = "arguments[0](globalThis.mark === location.href); globalThis.mark = location.href"
READ_RECORDINGS_SCRIPT = (
    "arguments[0](key.recordings().map(({ index, snapshot, log }) => [index, snapshot.length, log]))"
)
ROUNDS = 30
START_SIGN_INS_SCRIPT = """window.found = (async () => {
    const counters = [];
    while (counters.length < arguments[0]) {
        counters.push(await signIn());
    }
    return counters;
})(); arguments[1]();"""
NAVIGATION_COUNT = 5


def check_log(log):
    """Returns what `hidlog check` writes about a log that it does not accept, or an empty string."""
    program = os.environ.get("HIDLOG_PROGRAM", os.path.join(TOP, "hidlog"))
    checked = subprocess.run([program, "check"], input=log.encode(), capture_output=True, check=False)
    return f"status {checked.returncode}: {checked.stderr.decode()}" if checked.returncode else ""


def list_steps(driver, page):
    """Returns the navigations: each leads to another page or another point in the history."""

    def open_page(number):
        return lambda: driver.open(f"{page}&at={number}")

    def go(command):
        return lambda: driver.call(f"/{command}", {})

    return {
        "the first page": open_page(1),
        "the second page": open_page(2),
        "back": go("back"),
        "forward": go("forward"),
        "a reload": go("refresh"),
        "back after the reload": go("back"),
        "back again": go("back"),
        "a third page from there": open_page(3),
        "back from the third page": go("back"),
    }


def find_navigation_error(driver, page):
    """Registers, and signs in after each navigation. Returns what is wrong, and how many pages the browser had kept."""
    driver.open(page)
    driver.run("register('ann').then(arguments[0], (error) => arguments[0](String(error)))")
    kept = 0
    steps = list_steps(driver, page)
    for number, (name, step) in enumerate(steps.items(), start=1):
        step()
        kept += driver.run(WAS_RESTORED_SCRIPT)
        counter = driver.run(SIGN_IN_SCRIPT)
        if counter != number:
            return f"after {name} the counter is {counter}, not {number}", kept
    ((_, snapshot, log),) = driver.run(READ_RECORDINGS_SCRIPT)
    if snapshot or log.count("\ns ") != len(steps) + 1:
        return f"a log with {log.count('s ')} signatures, which begins with {snapshot} bytes of snapshot", kept
    return check_log(log), kept


def sign_in_from_both_tabs(driver, page):
    """Registers in one tab and signs in from both. Returns the counters that each tab saw."""
    driver.open(page)
    tabs = [driver.get_window(), driver.open_tab()]
    driver.open(page)
    driver.run("register('ann').then(arguments[0])")
    for tab in tabs:
        driver.switch(tab)
        driver.run(START_SIGN_INS_SCRIPT, ROUNDS)
    found = []
    for tab in tabs:
        driver.switch(tab)
        found.append(driver.run("found.then(arguments[0], (error) => arguments[0](String(error)))"))
    return found


def find_recording_error(driver, page):
    """Registers, then navigates and signs in, alternately in two tabs. Returns what is wrong with the recording."""
    driver.open(page)
    driver.run("localStorage.clear(); arguments[0]()")
    tabs = [driver.get_window(), driver.open_tab()]
    driver.switch(tabs[0])
    driver.open(page)
    driver.run("register('ann').then(arguments[0])")
    for number in range(2 * NAVIGATION_COUNT):
        driver.switch(tabs[number % 2])
        driver.open(f"{page}&at={number}")
        counter = driver.run(SIGN_IN_SCRIPT)
        if counter != number + 1:
            return f"sign-in {number + 1} has the counter {counter}"
    ((index, snapshot, log),) = driver.run(READ_RECORDINGS_SCRIPT)
    if (index, snapshot) != (1, 0) or log.count("\ns ") != 2 * NAVIGATION_COUNT + 1:
        signatures = log.count("\ns ")
        return f"recording {index} begins with {snapshot} bytes of snapshot, and has {signatures} signatures"
    return check_log(log)


def test_navigation(address):
    """Returns whether keys in both storages pass reload, back and forward."""
    passed = True
    for store in ("session", "local"):
        with Driver() as driver:
            wrong, kept = find_navigation_error(driver, f"{address}?store={store}")
        print(
            f"FAILED  reload, back and forward, {store}Storage: {wrong}"
            if wrong
            else f"ok  reload, back and forward, {store}Storage ({kept} pages were kept by the browser)"
        )
        passed = passed and not wrong
    return passed


def test_two_tabs(address):
    """Returns whether two tabs share a key."""
    with Driver() as driver:
        page = f"{address}?store=local"
        one, other = sign_in_from_both_tabs(driver, page)
        wrong = find_recording_error(driver, page)
    print(
        f"FAILED  one log of two tabs: {wrong}" if wrong else f"ok  one log of {2 * NAVIGATION_COUNT} pages in two tabs"
    )
    if not isinstance(one, list) or not isinstance(other, list):
        print(f"FAILED  two tabs with one key: {one}, {other}")
        return False
    good = sorted(one + other) == list(range(1, 2 * ROUNDS + 1)) and one == sorted(one) and other == sorted(other)
    turns = sum(left + 1 != right for left, right in zip(one, one[1:]))
    print(f"{'ok' if good else 'FAILED'}  two tabs with one key: {2 * ROUNDS} sign-ins, the tab changed {turns} times")
    return good and not wrong


def main():
    if not is_installed():
        print("tests/web: chromedriver is missing (apt-get install chromium-driver)", file=sys.stderr)
        return 3
    server = ThreadingHTTPServer(("127.0.0.1", 0), PageHandler)
    threading.Thread(target=server.serve_forever, daemon=True).start()
    address = f"http://localhost:{server.server_address[1]}/tests/web/frame.html"
    passed = [test_two_tabs(address), test_navigation(address)]
    return 0 if all(passed) else 1


if __name__ == "__main__":
    sys.exit(main())
