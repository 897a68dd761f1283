#!/usr/bin/python3
"""The request gate of `hidlog webdriver`: tables of request heads with expected results, and random heads compared with
a second implementation of the rules, written as a list of rejected heads.

    tests/webdriver/gate.py [--count 20000] [--seed 1]
"""

from __future__ import annotations

import argparse
import random
import sys
from pathlib import Path

sys.path.insert(0, str(Path(__file__).resolve().parents[2] / "bindings" / "python" / "src"))

from hidlog.webdriver.errors import DriverError
from hidlog.webdriver.gate import MAX_BODY, Head, Policy, admit

PORT = 4444
OWN_HOST = f"127.0.0.1:{PORT}"
JSON = ["application/json"]
POLICY = Policy(PORT, "127.0.0.1", ("chrome", "ci.example:8080"))
GOOD_POST = Head("POST", "/session", [OWN_HOST], [], [], JSON, ["2"])
GOOD_GET = Head("GET", "/status", [OWN_HOST])

ACCEPTED_HEADS = [
    GOOD_GET,
    GOOD_POST,
    GOOD_GET._replace(method="DELETE", path="/session/a1b2-c3"),
    GOOD_GET._replace(lengths=["0"]),
    # Requests of WebDriver clients.
    GOOD_POST._replace(types=["application/json;charset=UTF-8"]),
    GOOD_POST._replace(types=["Application/JSON ; charset=utf-8"]),
    GOOD_POST._replace(lengths=[str(MAX_BODY)]),
    GOOD_GET._replace(path="/session/x/element/f.A1.d.B2.e.3/attribute/data-x"),
    GOOD_GET._replace(path="/session/x/cookie/__Host-id"),
    # A credential ID with padding that is percent-encoded, as the Java client sends it.
    GOOD_GET._replace(method="DELETE", path="/session/x/webauthn/authenticator/y/credentials/AQ%3D%3d"),
    # Other names of this server.
    GOOD_GET._replace(hosts=[f"LocalHost:{PORT}"]),
    GOOD_GET._replace(hosts=[f"[::1]:{PORT}"]),
    # Hosts that the option allows, with any port or with one port.
    GOOD_GET._replace(hosts=["chrome"]),
    GOOD_GET._replace(hosts=["Chrome:5555"]),
    GOOD_GET._replace(hosts=["ci.example:8080"]),
    # A page that this server sends.
    GOOD_GET._replace(origins=[f"http://{OWN_HOST}"], sites=["same-origin"]),
    # A URL typed by a user.
    GOOD_GET._replace(sites=["none"]),
]

REJECTED_HEADS = {
    405: [
        GOOD_GET._replace(method=method)
        for method in ("PUT", "OPTIONS", "HEAD", "PATCH", "CONNECT", "TRACE", "get", "", "G T")
    ],
    403: [
        # DNS rebinding, and host names similar to the names of this server.
        *[
            GOOD_POST._replace(hosts=[host])
            for host in (
                "evil.example",
                f"evil.example:{PORT}",
                f"localhost.evil.example:{PORT}",
                f"127.0.0.1.evil.example:{PORT}",
                f"a.localhost:{PORT}",
                f"localhost.:{PORT}",
                "127.0.0.1",
                "127.0.0.1:4445",
                f"127.0.0.2:{PORT}",
                f"0.0.0.0:{PORT}",
                f"2130706433:{PORT}",
                f"[::]:{PORT}",
                "ci.example",
                "ci.example:80",
                "a.chrome",
            )
        ],
        # Requests from pages.
        *[
            GOOD_POST._replace(origins=origins)
            for origins in (
                ["http://evil.example"],
                ["null"],
                [""],
                [f"https://{OWN_HOST}"],
                [f"http://localhost:{PORT}"],
                ["http://127.0.0.1"],
                [f"http://{OWN_HOST}.evil.example"],
                [f"http://{OWN_HOST}/"],
                [f"http://{OWN_HOST}", "http://evil.example"],
                [f"http://{OWN_HOST}", f"http://{OWN_HOST}"],
            )
        ],
        # Requests from pages that have no header Origin: images, frames, links.
        *[GOOD_GET._replace(sites=sites) for sites in (["cross-site"], ["same-site"], [""], ["none", "cross-site"])],
    ],
    415: [
        GOOD_POST._replace(types=types)
        for types in (
            [],
            ["text/plain"],
            ["text/plain;application/json"],
            ["application/x-www-form-urlencoded"],
            ["multipart/form-data"],
            ["application/json5"],
            ["application/jsonp"],
            ["application/json, text/plain"],
            ["application/json", "text/plain"],
            [""],
        )
    ]
    + [GOOD_GET._replace(lengths=["5"])],
    411: [GOOD_POST._replace(lengths=[])],
    413: [GOOD_POST._replace(lengths=[length]) for length in (str(MAX_BODY + 1), "107374182400", "9" * 18)],
    414: [GOOD_GET._replace(path="/session/" + "a" * 5000)],
    400: [
        *[
            GOOD_POST._replace(lengths=lengths)
            for lengths in (
                ["-1"],
                ["+2"],
                [" 2"],
                ["2 "],
                ["2\n"],
                ["0x2"],
                ["1_0"],
                ["2.0"],
                [""],
                ["two"],
                ["\u0662"],
                ["2", "2"],
                ["2, 2"],
                ["2", "3"],
                ["9" * 19],
                ["9" * 5000],
            )
        ],
        *[
            GOOD_POST._replace(encodings=encodings)
            for encodings in (["chunked"], ["identity"], ["gzip, chunked"], [""])
        ],
        GOOD_POST._replace(encodings=["chunked"], lengths=[]),
        *[
            GOOD_GET._replace(hosts=hosts)
            for hosts in ([], [OWN_HOST, OWN_HOST], [""], ["a b"], [f"{OWN_HOST}/"], [f"x@{OWN_HOST}"])
        ],
        *[
            GOOD_GET._replace(hosts=[host])
            for host in ("127.0.0.1:", "127.0.0.1:0", "127.0.0.1:99999", "[::1", "\u24db\u24de")
        ],
        # Paths that are ambiguous or invalid.
        *[
            GOOD_GET._replace(path=path)
            for path in (
                "",
                "/",
                "status",
                "*",
                "//status",
                "/session//url",
                "/session/x/",
                "../credentials",
                "/session/../status",
                "/session/x/./url",
                "/session/x/..",
                "/session/x/%2e%2e/url",
                "/session/x/%2E./url",
                "/session/x%2furl",
                "/session/x%5curl",
                "/session/x\\url",
                "/session/%77x",
                "/session/x/%7Ewebauthn",
                "/session/x%00",
                "/session/x%0d%0aHost:%20y",
                "/session/x%",
                "/session/x%2",
                "/session/x%zz",
                "/session/x%25",
                "/session/x%C3%A4",
                "/session/\u00e4",
                "/session/x\x00",
                "/session/x\r\nHost: evil",
                "/session/x\n",
                "/session/x\t",
                "/session/x\x7f",
                "/session/x y",
                "/session?x",
                "/session#x",
                f"http://{OWN_HOST}/session",
                "http://evil.example/session",
                "evil.example:443",
            )
        ],
    ],
}
HOST_CASES = {
    # In a container, a request to the server's address is not DNS rebinding, but a host name must be allowed.
    ("172.17.0.2", "172.17.0.2:4444"): True,
    ("172.17.0.2", "172.17.0.3:4444"): False,
    ("172.17.0.2", "proxy:4444"): False,
    ("fd00::2", "[fd00::2]:4444"): True,
    ("fd00::2", "[fd00::3]:4444"): False,
}


def get_status(head: Head, policy: Policy = POLICY) -> int:
    """Returns 200 for a request that is accepted, or the status of the error."""
    try:
        admit(head, policy)
        return 200
    except DriverError as error:
        assert set(error.value) == {"error", "message", "stacktrace"}
        assert str(error).isprintable() and len(str(error)) < 500, str(error)
        return int(error.status)


def find_table_errors() -> list[str]:
    """Returns the rows of the tables with an unexpected result."""
    wrong = [f"{head} gets {get_status(head)}" for head in ACCEPTED_HEADS if get_status(head) != 200]
    for status, heads in REJECTED_HEADS.items():
        wrong += [f"{head} gets {get_status(head)}, not {status}" for head in heads if get_status(head) != status]
    for (address, host), is_right in HOST_CASES.items():
        if (get_status(GOOD_GET._replace(hosts=[host]), Policy(PORT, address)) == 200) != is_right:
            wrong.append(f"{host} at {address}")
    if get_status(GOOD_GET._replace(hosts=["127.0.0.1"]), Policy(80)) != 200:
        wrong.append("127.0.0.1 without a port is rejected at port 80")
    return wrong


# The parts from which members of random heads are made, among them parts of attacks.
HEADER_PARTS = [
    OWN_HOST,
    "localhost",
    ":4444",
    "evil.example",
    "null",
    "http://",
    "https://",
    ".",
    "..",
    "/",
    "%2e",
    "%2f",
    "%",
    "\\",
]
HEADER_PARTS += [
    "\r\n",
    "\x00",
    " ",
    "\t",
    "\u00e4",
    "-1",
    "+1",
    "1",
    "99999999999999999999",
    "application/json",
    "text/plain",
    ";",
]
HEADER_PARTS += [
    ",",
    "chunked",
    "session",
    "status",
    "?",
    "#",
    "@",
    "[::1]",
    "cross-site",
    "none",
    "same-origin",
    "a",
    "=",
    "%3D",
]


def make_random_head(rng: random.Random) -> Head:
    """Returns a head in which some members are random and the others valid."""
    head = rng.choice([GOOD_GET, GOOD_POST])

    def make_text() -> str:
        return "".join(rng.choices(HEADER_PARTS, k=rng.randint(0, 4)))

    for name in rng.sample(Head._fields, rng.randint(1, 3)):
        if name in ("method", "path"):
            value = make_text() if name == "method" else rng.choice(["/", "/session/", "/status", ""]) + make_text()
            head = head._replace(**{name: value})
        else:
            head = head._replace(**{name: [make_text() for _ in range(rng.randint(0, 2))]})
    return head


def find_faults(head: Head) -> list[str]:
    """Returns what is wrong with a head. These rules are written independently of the gate, from RFC 9110 and 9112,
    Fetch and WebDriver."""
    found = []
    host = head.hosts[0].lower() if len(head.hosts) == 1 else None
    if head.method not in ("GET", "POST", "DELETE"):
        found.append("method")
    own = {f"{host}:{PORT}" for host in ("127.0.0.1", "localhost", "[::1]")} | {"chrome", "ci.example:8080"}
    if host not in own and not (host or "").startswith("chrome:"):
        found.append("host")
    if [origin.lower() for origin in head.origins] not in ([], [f"http://{host}"]):
        found.append("origin")
    if set(map(str.lower, head.sites)) - {"none", "same-origin"}:
        found.append("site")
    if head.encodings:
        found.append("encoding")
    digits = "".join(head.lengths)
    is_length = len(head.lengths) == 1 and digits.isascii() and digits.isdecimal() and int(digits) <= MAX_BODY
    if not is_length and (head.lengths or head.method == "POST"):
        found.append("length")
    if head.method == "POST" or (is_length and int(digits)):
        kinds = [make_text.partition(";")[0].strip().lower() for make_text in head.types]
        found += [] if kinds == ["application/json"] else ["type"]
    path = head.path.replace("%3D", "=")
    is_plain = path.isascii() and path.isprintable() and not set(path) & set(' "#%<>?[\\]^`{|}')
    if not is_plain or not path.startswith("/") or set(path[1:].split("/")) & {"", ".", ".."}:
        found.append("path")
    return found


def main() -> int:
    parser = argparse.ArgumentParser()
    parser.add_argument("--count", type=int, default=20_000)
    parser.add_argument("--seed", type=int, default=1)
    given = parser.parse_args()
    wrong = find_table_errors()
    rng = random.Random(given.seed)
    accepted = 0
    for _ in range(given.count):
        head = make_random_head(rng)
        is_accepted = get_status(head) == 200
        accepted += is_accepted
        if is_accepted == bool(find_faults(head)):
            wrong.append(
                f"{head} is {'accepted' if is_accepted else 'refused'}, and has {find_faults(head) or 'no fault'}"
            )
    for make_text in wrong[:20]:
        print(f"FAILED  {make_text}")
    rows = len(ACCEPTED_HEADS) + sum(map(len, REJECTED_HEADS.values())) + len(HOST_CASES)
    if not wrong:
        print(f"ok  {rows} heads of the tables, and {given.count} random heads of which {accepted} are accepted")
    return 1 if wrong else 0


if __name__ == "__main__":
    sys.exit(main())
