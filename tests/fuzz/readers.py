#!/usr/bin/env python3
"""Fuzzes the parsers written in Python: those of the package (CBOR, snapshots, recordings, logs, WebAuthn JSON) and of the
conformance runner (CBOR, packets, replies, sessions). Each is traced line by line for coverage.

    tests/fuzz/readers.py [--seconds N] [--seed N] [--keep FOLDER] [NAME ..]    N seconds in total, default 30

Exit status: 1 if a parser raises an undocumented exception that isn't in the table of known failures, or if a known
failure doesn't occur in a run of at least a minute for its parser.
"""

from __future__ import annotations

import argparse
import json
import random
import sys
import tempfile
from functools import partial
from pathlib import Path
from typing import Any, Callable, Iterable, NamedTuple

TOP = Path(__file__).resolve().parents[2]
PACKAGE, CONFORMANCE = TOP / "bindings" / "python" / "src" / "hidlog", TOP / "conformance" / "hidlog_conformance"
sys.path[:0] = [str(TOP / "bindings" / "python" / "src"), str(TOP / "conformance")]

import hidlog  # noqa: E402
from guided import Edges, Fuzzer, Target  # noqa: E402
from hidlog import cbor, credentials, logs, webauthn_json  # noqa: E402
from hidlog.errors import HidlogError  # noqa: E402
from hidlog.recorded_key import RecordedKey  # noqa: E402
from hidlog.webauthn_client import AuthenticatorOptions, ClientCall  # noqa: E402
from hidlog_conformance import answers, ctap_cbor, hid_packets, session_file  # noqa: E402
from hidlog_conformance.session_cache import sessions_folder  # noqa: E402

# Known failures: the parser, the exception with its location, and the reason or the plan.
KNOWN_FINDINGS: dict[tuple[str, str], str] = {}
MIN_SECONDS_FOR_KNOWN = 60.0


class Parser(NamedTuple):
    """A parser to fuzz, the exceptions that it may raise, the folder whose lines are traced, and a function that returns the first inputs."""

    target: Target
    allowed: tuple[type[BaseException], ...]
    folder: Path
    seeds: Callable[[], Iterable[bytes]]


def fuzz_cbor(data: bytes) -> None:
    """Checks that decoding, encoding and decoding again returns the same value."""
    value = cbor.decode(data)
    assert cbor.decode(cbor.encode(value)) == value


def fuzz_snapshot(data: bytes) -> None:
    listed = credentials.read_snapshot(data)
    assert credentials.read_snapshot(credentials.write_snapshot(listed)) == listed


def fuzz_recording(data: bytes) -> None:
    """Replays a recording to a client that sends the requests in the recording."""
    key = RecordedKey(data)
    for line in data.decode("ascii", errors="replace").splitlines():
        if line.startswith(">"):
            try:
                packet = bytes.fromhex(line.split(" ")[-1])
            except ValueError:
                packet = b""
            key.write_packet(packet.ljust(64, b"\0")[:64])
    key.read_packet()


def fuzz_log(data: bytes) -> None:
    for result in (logs.replay(data), logs.check(data), logs.quiet(data)):
        assert result.status in (0, 1)


def encode_client_request(ceremony: str, options: Any) -> None:
    """Makes the WebAuthn client check options, and encode the request."""
    ClientCall(ceremony, options, "optional", "https://a.example", AuthenticatorOptions()).request()


def fuzz_json(data: bytes) -> None:
    """Passes JSON of WebAuthn options and responses to each function that parses such JSON."""
    try:
        value: Any = json.loads(data)
    except (ValueError, RecursionError):
        return
    reads: tuple[Callable[[Any], Any], ...] = (
        webauthn_json.creation_options,
        webauthn_json.request_options,
        webauthn_json.registration,
        webauthn_json.authentication,
        partial(encode_client_request, "create"),
        partial(encode_client_request, "get"),
    )
    for read in reads:
        try:
            read(value)
        except HidlogError:
            pass


def fuzz_canonical_cbor(data: bytes) -> None:
    value = ctap_cbor.decode(data)
    assert ctap_cbor.encode(value) == data and isinstance(ctap_cbor.to_diagnostic(value), str)


def fuzz_packets(data: bytes) -> None:
    for of_host in (False, True):
        collector = hid_packets.MessageReassembler(of_host)
        for at in range(0, len(data), 64):
            message = collector.feed(data[at : at + 64])
            assert message is None or isinstance(message.describe(), str)


def fuzz_registration_response(data: bytes) -> None:
    """Checks data as the response to the registration in examples/."""
    answers.check_make_credential_response(data, read_registration("> ")[7:], [], {}, answers.DeviceFacts())


def fuzz_session(data: bytes) -> None:
    with tempfile.NamedTemporaryFile(dir=MEMORY_FOLDER) as file:
        file.write(data)
        file.flush()
        session_file.read_session(file.name, "fuzzed")


MEMORY_FOLDER = "/dev/shm" if Path("/dev/shm").is_dir() else None


def read_registration(side: str) -> bytes:
    """Returns the message of one side of the registration in examples/, with its header."""
    lines = (TOP / "examples/registration.log").read_text(encoding="utf-8").splitlines()
    packets = [bytes.fromhex(line.split(" ")[-1]) for line in lines if line.startswith(side)]
    begin = next(place for place, packet in enumerate(packets) if packet[4] == 0x90)
    whole = packets[begin] + b"".join(packet[5:] for packet in packets[begin + 1 :])
    return whole[: 7 + int.from_bytes(whole[5:7], "big")]


def read_snapshots() -> Iterable[bytes]:
    return [path.read_bytes() for path in sorted((TOP / "examples").rglob("*.snapshot"))]


def read_recordings() -> Iterable[bytes]:
    return [path.read_bytes() for path in sorted((TOP / "examples").rglob("*.log"))]


def read_messages() -> Iterable[bytes]:
    return [read_registration("> ")[8:], read_registration("< ")[8:], *read_snapshots()]


def read_packet_seeds() -> Iterable[bytes]:
    for log in read_recordings():
        lines = log.decode().splitlines()
        yield b"".join(bytes.fromhex(line.split(" ")[2]) for line in lines if line.startswith("> "))


def make_json_seeds() -> Iterable[bytes]:
    """Yields JSON of options, and of the responses to a registration and a sign-in."""
    user = {"id": "AQ", "name": "ann", "displayName": "Ann"}
    listed = [{"type": "public-key", "id": "AQID", "transports": ["usb"]}]
    algorithms = [{"type": "public-key", "alg": -7}]
    made = {"challenge": "AAAA", "rp": {"id": "example.com", "name": "A"}, "user": user, "pubKeyCredParams": algorithms}
    more = {
        "excludeCredentials": listed,
        "timeout": 5000,
        "extensions": {"credProps": True, "prf": {"eval": {"first": "AA"}}},
    }
    asked = {"challenge": "AAAA", "rpId": "example.com", "allowCredentials": listed, "userVerification": "preferred"}
    yield from (json.dumps(options).encode() for options in (made, {**made, **more}, {"publicKey": made}, asked))
    with hidlog.SecurityKey() as key:
        browser = key.browser("https://example.com")
        first = browser.create({**made, "authenticatorSelection": {"residentKey": "required"}})
        found = browser.get({**asked, "allowCredentials": []})
    yield from (
        json.dumps(options, default=lambda data: webauthn_json.b64url_encode(bytes(data))).encode()
        for options in (first, found)
    )


def read_sessions() -> Iterable[bytes]:
    return [path.read_bytes() for path in sorted(Path(sessions_folder()).rglob("*"))[:400:10] if path.is_file()]


PARSERS = {
    "cbor": Parser(fuzz_cbor, (HidlogError,), PACKAGE, read_messages),
    "snapshots": Parser(fuzz_snapshot, (HidlogError,), PACKAGE, read_snapshots),
    "recordings": Parser(fuzz_recording, (HidlogError,), PACKAGE, read_recordings),
    "logs": Parser(fuzz_log, (HidlogError,), PACKAGE, read_recordings),
    "json": Parser(fuzz_json, (HidlogError,), PACKAGE, make_json_seeds),
    "canonical": Parser(fuzz_canonical_cbor, (ctap_cbor.CborError,), CONFORMANCE, read_messages),
    "packets": Parser(fuzz_packets, (), CONFORMANCE, read_packet_seeds),
    "answers": Parser(
        fuzz_registration_response, (answers.Mismatch,), CONFORMANCE, lambda: [read_registration("< ")[7:]]
    ),
    "sessions": Parser(fuzz_session, (session_file.SessionSyntaxError,), CONFORMANCE, read_sessions),
}


def read_corpus(folder: Path | None, name: str) -> list[bytes]:
    """Returns the inputs that an earlier run kept for a parser."""
    return [] if folder is None else [path.read_bytes() for path in sorted((folder / name).glob("kept_*"))]


def save_corpus(folder: Path | None, name: str, fuzzer: Fuzzer) -> None:
    """Writes the inputs that were kept, and the first input of each finding."""
    if folder is not None:
        place = folder / name
        place.mkdir(parents=True, exist_ok=True)
        for number, data in enumerate(fuzzer.corpus):
            (place / f"kept_{number}").write_bytes(data)
        for number, data in enumerate(fuzzer.findings.values()):
            (place / f"finding_{number}").write_bytes(data)


def fuzz(name: str, seconds: float, seed: int, folder: Path | None) -> int:
    """Fuzzes a parser. Returns the number of new findings, plus the number of known findings that no longer occur."""
    reader = PARSERS[name]
    fuzzer = Fuzzer(reader.target, reader.allowed, Edges([reader.folder]), random.Random(seed))
    fuzzer.run([*reader.seeds(), *read_corpus(folder, name)], seconds)
    save_corpus(folder, name, fuzzer)
    edges, bad = len(fuzzer.edges.seen), 0
    print(f"{name}: {fuzzer.runs:,} runs in {seconds:.0f} s, {edges} line pairs, {len(fuzzer.corpus)} inputs kept")
    for kind, data in fuzzer.findings.items():
        known = KNOWN_FINDINGS.get((name, kind))
        bad += known is None
        print(
            f"{'FAILED' if known is None else 'known'}   {name}: {kind}: {data[:60].hex()}{f' ({known})' if known else ''}"
        )
    for of, kind in KNOWN_FINDINGS:
        if of == name and kind not in fuzzer.findings and seconds >= MIN_SECONDS_FOR_KNOWN:
            bad += 1
            print(
                f"PASSES   {name}: {kind} is in the table of known failures but didn't occur: remove it from the table"
            )
    return bad


def main() -> int:
    parser = argparse.ArgumentParser(description=(__doc__ or "").splitlines()[0])
    parser.add_argument("--seconds", type=float, default=30.0)
    parser.add_argument("--seed", type=int, default=random.SystemRandom().randrange(1 << 32))
    parser.add_argument("--keep", type=Path)
    parser.add_argument("names", nargs="*", metavar="NAME", choices=[[], *PARSERS])
    words = parser.parse_args()
    names = words.names or list(PARSERS)
    print(f"seed {words.seed}")
    bad = sum(fuzz(name, words.seconds / len(names), words.seed, words.keep) for name in names)
    return 1 if bad else 0


if __name__ == "__main__":
    sys.exit(main())
