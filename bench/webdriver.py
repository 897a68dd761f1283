#!/usr/bin/python3
"""Compares the duration of commands with chromedriver alone and with `hidlog webdriver` as a proxy, alternately.

    bench/webdriver.py [--rounds 100]

Needs chromedriver. Each figure is a median: for a command that the proxy passes on, for a page's registration and
sign-in with chromedriver's authenticator and with the proxy's authenticator, and for adding and removing an
authenticator. Exit status: 1 if a figure of the proxy exceeds its limit.
"""

from __future__ import annotations

import argparse
import http.client
import json
import statistics
import sys
import time
from functools import partial
from pathlib import Path
from tempfile import TemporaryDirectory
from typing import Any

TOP = Path(__file__).resolve().parents[1]
sys.path.insert(0, str(TOP / "tests" / "webdriver"))

import run  # noqa: E402

# Limits in milliseconds: for "a command", how much longer it takes with the proxy; otherwise, the proxy's total time.
LIMITS = {"a command": 3.0, "sign-in": 25.0, "add authenticator": 20.0, "remove authenticator": 20.0}
OPTIONS = {"protocol": "ctap2", "transport": "usb"}
OPTIONS |= {name: True for name in ("hasResidentKey", "hasUserVerification", "isUserVerified")}


class Client:
    """A session on a persistent connection, as WebDriver clients use."""

    def __init__(self, url: str, page: str):
        self._connection = http.client.HTTPConnection(url.rpartition("/")[2], timeout=600)
        chrome = {"args": ["--headless=new", "--no-sandbox", "--disable-dev-shm-usage"]}
        wanted = {"capabilities": {"alwaysMatch": {"goog:chromeOptions": chrome}}}
        self._path = "/session"
        self._path = f"/session/{self.call('POST', '', wanted)['sessionId']}"
        self.call("POST", "/timeouts", {"script": 60_000})
        self.call("POST", "/url", {"url": page})

    def call(self, method: str, path: str, parameters: Any = None) -> Any:
        body = None if parameters is None else json.dumps(parameters)
        self._connection.request(method, self._path + path, body, {"Content-Type": "application/json"})
        response = self._connection.getresponse()
        value = json.load(response)["value"]
        assert response.status == 200, value
        return value

    def call_page(self, function: str, **options: Any) -> Any:
        script = "const started = performance.now();"
        script += f"{function}(arguments[0]).then((value) => arguments[1]([value, performance.now() - started]))"
        return self.call("POST", "/execute/async", {"script": script, "args": [options]})

    def measure_operations(self) -> dict[str, float]:
        """Runs each operation once, and returns the milliseconds of each."""
        took = {}

        def measure_call(name: str, method: str, path: str, parameters: Any = None) -> Any:
            started = time.perf_counter()
            value = self.call(method, path, parameters)
            took[name] = 1000 * (time.perf_counter() - started)
            return value

        measure_call("a command", "GET", "/title")
        key = measure_call("add authenticator", "POST", "/webauthn/authenticator", OPTIONS)
        made, took["registration"] = self.call_page("register", residentKey="required")
        used, took["sign-in"] = self.call_page("signIn")
        assert isinstance(used, dict) and used["id"] == made["id"], (made, used)
        measure_call("a command with an authenticator", "GET", "/title")
        measure_call("remove authenticator", "DELETE", f"/webauthn/authenticator/{key}")
        return took

    def close(self) -> None:
        self.call("DELETE", "")


def measure_medians(clients: dict[str, Client], rounds: int) -> dict[str, dict[str, float]]:
    """Returns the medians for each client, from alternating rounds."""
    taken: dict[str, list[dict[str, float]]] = {name: [] for name in clients}
    for number in range(rounds + 3):
        for name, client in clients.items():
            took = client.measure_operations()
            if number >= 3:
                taken[name].append(took)
    return {
        name: {figure: statistics.median(took[figure] for took in listed) for figure in listed[0]}
        for name, listed in taken.items()
    }


def print_figures(found: dict[str, dict[str, float]]) -> bool:
    """Prints the figures. Returns whether all figures of the proxy are within the limits."""
    is_within = True
    print(f"{'milliseconds':34}{'chromedriver':>14}{'proxy':>10}{'more':>10}")
    for name, own in found["chromedriver"].items():
        at_proxy = found["proxy"][name]
        bound = LIMITS.get("a command" if name.startswith("a command") else name)
        counted = at_proxy - own if name.startswith("a command") else at_proxy
        is_over = bound is not None and counted >= bound
        is_within = is_within and not is_over
        text = "" if bound is None else f"   {'OVER' if is_over else 'under'} {bound:g}"
        print(f"{name:34}{own:14.2f}{at_proxy:10.2f}{at_proxy - own:10.2f}{text}")
    return is_within


def main() -> int:
    parser = argparse.ArgumentParser()
    parser.add_argument("--rounds", type=int, default=100)
    options = parser.parse_args()
    with TemporaryDirectory() as work_dir, run.start_server(partial(run.FileHandler, directory=str(run.HERE))) as port:
        page = f"http://localhost:{port}/page.html"
        with run.start_process(["chromedriver", "--log-level=OFF"], run.find_free_port()) as driver:
            with run.start_process(run.make_proxy_command(driver, Path(work_dir)), run.find_free_port()) as proxy:
                clients = {"chromedriver": Client(driver, page), "proxy": Client(proxy, page)}
                found = measure_medians(clients, options.rounds)
                for client in clients.values():
                    client.close()
    return 0 if print_figures(found) else 1


if __name__ == "__main__":
    sys.exit(main())
