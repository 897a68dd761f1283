"""Verifies the signatures of a long log in a second process, some time before the rules need the results.

A line of the process's input is a batch: for each signature the coordinates of the P-256 key, the signed bytes and the
signature, in hexadecimal digits. The output line has a digit for each signature: 1 if it verifies. Only speed depends on
this module: a signature without a result is verified when the rules need it.
"""

from __future__ import annotations

import signal
import subprocess
import sys
from collections import deque
from typing import Any, Deque, Dict, List, Optional, Tuple

from hidlog_conformance import keys
from hidlog_conformance.answers import GET, MAKE, Mismatch, read_cose_key
from hidlog_conformance.ctap_cbor import CborError
from hidlog_conformance.hid_packets import CBOR
from hidlog_conformance.judged_parts import find_signer, read_credential_id
from hidlog_conformance.requests import decode_parameters
from hidlog_conformance.transactions import Entry

# The coordinates of a public key on P-256, the signed bytes, and the signature.
Job = Tuple[bytes, bytes, bytes, bytes]
ES256 = -7
# The program of the process, whose arguments are this process's paths of modules. Python's option -I adds no others.
PROGRAM = "import sys; sys.path[:] = sys.argv[1:]; from hidlog_conformance import verify_ahead; verify_ahead.main()"
# The number of signatures after which the process starts, and of batches that may be in the process.
FEW, MAX_BATCHES = 64, 4


def verify_batch(line: bytes) -> str:
    """Verifies the signatures of an input line, and returns the output line."""
    words = [bytes.fromhex(word.decode()) for word in line.split()]
    jobs = zip(words[0::4], words[1::4], words[2::4], words[3::4])
    results = [keys.verify({3: ES256, -2: x, -3: y}, signed, signature) for x, y, signed, signature in jobs]
    return "".join("1" if result else "0" for result in results) + "\n"


class Process:
    """The second process. Raises OSError or ValueError if it does not run any more."""

    def __init__(self) -> None:
        self.process = subprocess.Popen(
            [sys.executable or "python3", "-I", "-c", PROGRAM, *sys.path],
            stdin=subprocess.PIPE,
            stdout=subprocess.PIPE,
            stderr=subprocess.DEVNULL,
        )

    def send(self, jobs: List[Job]) -> None:
        """Sends a batch."""
        assert self.process.stdin is not None
        self.process.stdin.write(b" ".join(part.hex().encode() for job in jobs for part in job) + b"\n")
        self.process.stdin.flush()

    def receive(self, count: int) -> List[bool]:
        """Returns the results of the oldest batch, which has `count` signatures."""
        assert self.process.stdout is not None
        line = self.process.stdout.readline().strip()
        if len(line) != count:
            raise OSError("the process that verifies signatures ended")
        return [digit == ord("1") for digit in line]

    def close(self) -> None:
        """Ends the process."""
        self.process.kill()
        self.process.communicate()


class AheadVerifier:
    """Verifies signatures of packets before the packets are checked."""

    def __init__(self) -> None:
        # The public keys of the log's registrations, by credential ID.
        self.public: Dict[bytes, Tuple[bytes, bytes]] = {}
        self.process: Optional[Process] = None
        self.count = 0
        self.has_failed = not keys.AVAILABLE
        # The batches in the process, oldest first; and results.
        self.batches: Deque[List[Job]] = deque()
        self.results: Dict[Job, bool] = {}

    def __enter__(self) -> "AheadVerifier":
        keys.find_verified = self.find
        return self

    def __exit__(self, *_: object) -> None:
        keys.find_verified = None
        self.close()

    def close(self) -> None:
        """Ends the process, if any."""
        self.batches.clear()
        if self.process is not None:
            self.process.close()
        self.process = None

    def prepare(self, entries: List[Entry]) -> None:
        """Begins to verify the signatures of packets."""
        ended = [entry for entry in entries if entry.message is not None and entry.message.lines[-1] == entry.line]
        jobs = [job for job in map(self.read_job, ended) if job is not None]
        self.count += len(jobs)
        if self.has_failed or self.count < FEW or not jobs:
            return
        try:
            self.process = self.process or Process()
            if len(self.batches) == MAX_BATCHES:
                self.receive()
            self.process.send(jobs)
            self.batches.append(jobs)
        except (OSError, ValueError):
            self.fail()

    def receive(self) -> None:
        """Receives the results of the oldest batch. They replace those of the batches before."""
        jobs = self.batches.popleft()
        assert self.process is not None
        self.results = dict(zip(jobs, self.process.receive(len(jobs))))

    def fail(self) -> None:
        """Ends the process, so that signatures are verified when the rules need them."""
        self.has_failed = True
        self.close()

    def find(self, cose: Any, signed: bytes, signature: bytes) -> Optional[bool]:
        """Returns whether a signature verified; None if it was not verified."""
        job = (cose.get(-2), cose.get(-3), signed, signature)
        if cose.get(3) != ES256 or self.has_failed:
            return None
        try:
            while job not in self.results and any(job in batch for batch in self.batches):
                self.receive()
        except (OSError, ValueError):
            self.fail()
        return self.results.get(job)

    def read_job(self, entry: Entry) -> Optional[Job]:
        """Returns the signature of the message that a packet ends, if the log shows its public key."""
        message, transaction = entry.message, entry.transaction
        if message is None or transaction is None or not message.whole:
            return None
        request, data = transaction.data, message.data
        if transaction.command != CBOR or data[:1] != b"\0" or request[:1] not in (b"\1", b"\2"):
            return None
        try:
            asked, item = decode_parameters(request) or {}, decode_parameters(data) or {}
            if request[0] == MAKE:
                return self.read_registration(asked, item, read_credential_id(data))
            x, y = self.public[find_signer(asked, item)]
            return x, y, item[2] + asked[2], item[3]
        except (Mismatch, CborError, KeyError, TypeError, ValueError, IndexError, AttributeError):
            return None

    def read_registration(self, asked: Dict[Any, Any], item: Dict[Any, Any], credential_id: bytes) -> Optional[Job]:
        """Stores the public key of a registration, and returns its self attestation's signature, if any."""
        cose, _ = read_cose_key(item[2][55 + len(credential_id) :])
        if cose[3] != ES256:
            return None
        self.public[credential_id] = cose[-2], cose[-3]
        if item[1] != "packed" or "x5c" in item[3]:
            return None
        return cose[-2], cose[-3], item[2] + asked[1], item[3]["sig"]


def main() -> None:
    """Verifies the signatures of standard input."""
    signal.signal(signal.SIGINT, signal.SIG_IGN)
    for line in sys.stdin.buffer:
        sys.stdout.write(verify_batch(line))
        sys.stdout.flush()
