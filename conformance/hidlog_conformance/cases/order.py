"""Cases about the order of checks in the transport: packets with two errors, and packets to a busy device."""

from __future__ import annotations

from typing import Any, Callable, Dict, List, Tuple

from hidlog_conformance import hid_packets as hid
from hidlog_conformance.cases.corpus import INFO, NONCE, Case

UNALLOCATED_CHANNEL = 9
PROFILE_CHOICE = "the standard does not say which of two errors is reported"
STATES: Dict[str, Callable[[Case], Case]] = {
    "idle": lambda case: case,
    "own_message": lambda case: case.begin(1),
    "own_work": lambda case: case.make().expect("keepalive 02"),
    "other_message": lambda case: case.begin(2),
    "other_work": lambda case: case.make(2).expect("keepalive 02 on 2"),
}

# Texts for a case's requirement: the state of the device, the packet, and the transaction that continues.
STATE_TEXTS = {
    "idle": "",
    "own_message": " during a message of its channel",
    "own_work": " during a request of its channel",
    "other_message": " during a message of another channel",
    "other_work": " during a request of another channel",
}
PACKET_TEXTS = {
    "cancel": "CANCEL",
    "cancel_strange": "CANCEL on an unallocated channel",
    "cancel_long": "CANCEL with a length",
    "ping": "PING",
    "ping_strange": "PING on an unallocated channel",
    "ping_broadcast": "PING on the broadcast channel",
    "info": "authenticatorGetInfo",
    "unknown": "An unknown command",
    "unknown_strange": "An unknown command on an unallocated channel",
    "unknown_long": "An unknown command with a length of 7610",
    "long": "A length of 7610",
    "long_strange": "A length of 7610 on an unallocated channel",
    "long_broadcast": "A length of 7610 on the broadcast channel",
    "empty_cbor": "An empty CBOR message",
    "empty_cbor_strange": "An empty CBOR message on an unallocated channel",
    "init": "INIT",
    "init_broadcast": "INIT on the broadcast channel",
    "short_init": "INIT of 7 bytes",
    "short_init_strange": "INIT of 7 bytes on an unallocated channel",
    "short_init_broadcast": "INIT of 7 bytes on the broadcast channel",
    "long_init": "INIT with a length of 7610",
    "go_on": "A continuation packet",
}
ENDS = {"message": ", and the message continues", "work": ", and the request continues", "": ""}

# State, packet, response (empty if none), the transaction that continues, whether the standard defines this, section.
Row = Tuple[str, str, str, str, bool, str]
ROWS: List[Row] = [
    ("own_work", "cancel", "status 2d", "", True, "cancel"),
    ("own_message", "cancel", "", "message", True, "cancel"),
    ("other_message", "cancel", "", "message", True, "cancel"),
    ("other_work", "cancel", "", "work", True, "cancel"),
    ("idle", "cancel_strange", "", "", True, "cancel"),
    ("own_message", "cancel_strange", "", "message", True, "cancel"),
    ("own_work", "cancel_strange", "", "work", True, "cancel"),
    ("own_work", "cancel_long", "status 2d", "", False, "cancel"),
    ("own_message", "cancel_long", "", "message", False, "cancel"),
    ("idle", "cancel_long", "", "", False, "cancel"),
    ("own_message", "ping_strange", "error 0b on 9", "message", False, "channels"),
    ("own_work", "ping_strange", "error 0b on 9", "work", False, "channels"),
    ("idle", "unknown_strange", "error 0b on 9", "", False, "channels"),
    ("idle", "long_strange", "error 0b on 9", "", False, "channels"),
    ("idle", "empty_cbor_strange", "error 0b on 9", "", False, "channels"),
    ("idle", "short_init_strange", "error 0b on 9", "", False, "channels"),
    ("own_message", "unknown_strange", "error 0b on 9", "message", False, "channels"),
    ("own_work", "long_strange", "error 0b on 9", "work", False, "channels"),
    ("own_message", "ping_broadcast", "error 0b on ffffffff", "message", False, "channels"),
    ("own_work", "ping_broadcast", "error 0b on ffffffff", "work", False, "channels"),
    ("idle", "long_broadcast", "error 0b on ffffffff", "", False, "channels"),
    ("own_message", "short_init", "error 03", "", False, "init"),
    ("own_work", "short_init", "error 03", "work", False, "init"),
    ("other_message", "short_init", "error 03", "message", False, "init"),
    ("other_work", "short_init", "error 03", "work", False, "init"),
    ("own_message", "short_init_broadcast", "error 03 on ffffffff", "message", False, "init"),
    ("own_work", "short_init_broadcast", "error 03 on ffffffff", "work", False, "init"),
    ("idle", "long_init", "error 03", "", True, "init"),
    ("own_message", "init_broadcast", "init nonce 0001020304050607", "message", True, "init"),
    ("own_work", "init_broadcast", "init nonce 0001020304050607", "work", True, "init"),
    ("own_message", "init", "init nonce 0001020304050607 on 1", "", True, "abort"),
    ("own_work", "init", "init nonce 0001020304050607 on 1", "", True, "abort"),
    ("other_message", "init", "init nonce 0001020304050607 on 1", "message", True, "init"),
    ("other_work", "init", "init nonce 0001020304050607 on 1", "work", True, "init"),
    ("other_message", "ping", "error 06", "message", True, "busy"),
    ("other_work", "ping", "error 06", "work", True, "busy"),
    ("other_message", "unknown", "error 06", "message", False, "busy"),
    ("other_work", "unknown", "error 06", "work", False, "busy"),
    ("other_message", "long", "error 06", "message", False, "busy"),
    ("other_work", "long", "error 06", "work", False, "busy"),
    ("other_message", "empty_cbor", "error 06", "message", False, "busy"),
    ("other_work", "empty_cbor", "error 06", "work", False, "busy"),
    ("own_work", "ping", "error 06", "work", False, "busy"),
    ("own_work", "info", "error 06", "work", False, "busy"),
    ("own_work", "unknown", "error 06", "work", False, "busy"),
    ("own_work", "long", "error 06", "work", False, "busy"),
    ("own_work", "empty_cbor", "error 06", "work", False, "busy"),
    ("own_message", "ping", "error 04", "", False, "sequence"),
    ("own_message", "info", "error 04", "", False, "sequence"),
    ("own_message", "unknown", "error 04", "", False, "sequence"),
    ("own_message", "long", "error 04", "", False, "sequence"),
    ("own_message", "empty_cbor", "error 04", "", False, "sequence"),
    ("idle", "unknown_long", "error 01", "", False, "error"),
    ("other_work", "go_on", "", "work", True, "sequence"),
    ("own_work", "go_on", "", "work", True, "sequence"),
    ("other_message", "go_on", "", "message", True, "sequence"),
]


def add_packet(case: Case, what: str) -> None:
    """Adds the packet with this name to the case."""
    name, _, place = what.rpartition("_")
    channel = {"strange": UNALLOCATED_CHANNEL, "broadcast": hid.BROADCAST}.get(place, 1)
    name = name if channel != 1 else what
    sends: Dict[str, Tuple[int, bytes, int]] = {
        "cancel": (hid.CANCEL, b"", 0),
        "cancel_long": (hid.CANCEL, b"", 7610),
        "ping": (hid.PING, b"a", 1),
        "info": (hid.CBOR, INFO, 1),
        "unknown": (0x02, b"a", 1),
        "unknown_long": (0x02, b"", 7610),
        "long": (hid.PING, b"", 7610),
        "empty_cbor": (hid.CBOR, b"", 0),
        "init": (hid.INIT, NONCE, 8),
        "short_init": (hid.INIT, NONCE[:7], 7),
        "long_init": (hid.INIT, NONCE, 7610),
    }
    if name == "go_on":
        case.go_on(1)
    else:
        command, data, length = sends[name]
        case.send(channel, command, data, length)


def expect_afterwards(case: Case, state: str, goes_on: str) -> None:
    """Adds expectations that the message or the request continues after the packet, or that nothing follows."""
    channel = 2 if state.startswith("other") else 1
    if goes_on == "message":
        case.go_on(channel).expect(f"echo on {channel}")
    elif goes_on == "work":
        case.expect_credential(1, channel=channel)
    elif state == "own_message":
        case.go_on(1).expect("silence").expect_alive()
    else:
        case.tick(150).expect("silence").expect_alive()


def cases() -> List[Case]:
    """Returns the cases of this file."""
    found = []
    for state, what, answer, goes_on, fixed, section in ROWS:
        response = "an INIT response" if answer.startswith("init") else answer.partition(" on ")[0]
        effect = f"gets {response}" if answer else "is ignored"
        requirement = f"{PACKET_TEXTS[what]}{STATE_TEXTS[state]} {effect}{ENDS[goes_on]}."
        more: Dict[str, Any] = {
            "needs": ["touch"] if state.endswith("work") else [],
            "profile": "" if fixed else PROFILE_CHOICE,
        }
        case = Case(f"order/{state}_and_{what}", section, requirement, **more)
        STATES[state](case.allocate(2))
        add_packet(case, what)
        case.expect(answer or "nothing")
        expect_afterwards(case, state, goes_on)
        found.append(case)
    return found
