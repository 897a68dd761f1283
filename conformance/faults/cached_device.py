"""hidlog live with a cache of its output: the program runs only for new inputs."""

from __future__ import annotations

from typing import Dict, List, Tuple

from hidlog_conformance import keys
from hidlog_conformance.devices import LiveDevice
from hidlog_conformance.keys import KeyMaker


class Node:
    """A node in a tree of inputs: the program's output after the inputs on the path to the node."""

    def __init__(self) -> None:
        self.answers: List[str] = []
        self.next: Dict[str, Node] = {}


ROOT = Node()
SIGNATURES: Dict[Tuple[bytes, bytes], bytes] = {}


class CachedSignatures(KeyMaker):
    """Returns the same signature for the same data, so that inputs repeat."""

    def sign(self, credential: bytes, signed: bytes) -> bytes:
        """Returns a signature by a credential's key."""
        if (credential, signed) not in SIGNATURES:
            SIGNATURES[credential, signed] = super().sign(credential, signed)
        return SIGNATURES[credential, signed]


class CachedDevice(LiveDevice):
    """Takes the output from the cache if all inputs so far were seen before. The program is deterministic."""

    def start(self) -> None:
        """Begins a session, without starting the program."""
        self.begin()
        self.keys = CachedSignatures()
        self.place = ROOT
        self.inputs: List[str] = []

    def get_output(self, line: str) -> List[str]:
        """Returns the response's lines after an input line."""
        self.inputs.append(line)
        node = self.place.next.get(line)
        if node is None:
            before = self.inputs[:-1] if self.process is None else []
            if self.process is None:
                self.run()
            for earlier in before:
                self.exchange(earlier)
            node = self.place.next[line] = Node()
            node.answers = self.exchange(line)
        elif self.process is not None:
            self.exchange(line)
        self.place = node
        return node.answers


VERIFIED_SIGNATURES: Dict[Tuple[bytes, bytes, bytes], bool] = {}
verifies_uncached = keys.is_valid_signature


def verify_cached(cose: object, signed: bytes, signature: bytes) -> bool:
    """Verifies a signature, with a cache."""
    asked = (repr(cose).encode(), signed, signature)
    if asked not in VERIFIED_SIGNATURES:
        VERIFIED_SIGNATURES[asked] = verifies_uncached(cose, signed, signature)
    return VERIFIED_SIGNATURES[asked]
