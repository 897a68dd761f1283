"""Cases that compare getInfo with the device's behavior (6.4): a command without its option in getInfo is refused, and
getInfo's numbers are right."""

from __future__ import annotations

from typing import Any, Dict, List, Tuple

from hidlog_conformance.cases.corpus import INFO, Case, user
from hidlog_conformance.ctap_cbor import encode

# By option: the command and its parameters.
COMMANDS: Dict[str, Tuple[int, Dict[int, Any]]] = {
    "authnrCfg": (0x0D, {1: 2}),
    "bioEnroll": (0x09, {6: True}),
    "credMgmt": (0x0A, {1: 1}),
    "largeBlobs": (0x0C, {1: 10, 3: 0}),
    "clientPin": (0x06, {1: 1, 2: 1}),
}
# remainingDiscoverableCredentials.
REMAINING = "14"


def cases() -> List[Case]:
    """Returns the cases of this file."""
    found: List[Case] = []
    for option, (command, asked) in COMMANDS.items():
        requirement = f"Without the option {option} the command {command:02x} is not supported (6.4)."
        for name, data in ((option, encode(asked)), (f"{option}_at_all", b"")):
            case = Case(f"truth/no_{name}", "info", requirement, uses=[f"no option {option}"])
            found.append(case.allocate().cbor(bytes([command]) + data).expect("refused 01").expect_alive())
    more: Dict[str, Any] = {"needs": ["touch", "reset"], "uses": ["rk", f"member {REMAINING}"]}
    case = Case(
        "truth/remaining", "info", "remainingDiscoverableCredentials decreases with registrations (6.4).", **more
    )
    case.allocate().cbor(INFO).expect(f"member {REMAINING} any").register(1, rk=True, p3=user(1))
    case.cbor(INFO).expect(f"member {REMAINING} less").register(2, rk=True, p3=user(2))
    found.append(case.cbor(INFO).expect(f"member {REMAINING} less"))
    case = Case("truth/remaining_of_two_rps", "info", "remainingDiscoverableCredentials is for all RPs (6.4).", **more)
    case.allocate().cbor(INFO).expect(f"member {REMAINING} any").register(1, rk=True)
    case.register(2, rk=True, p2={"id": "example.org", "name": "x"})
    found.append(case.cbor(INFO).expect(f"member {REMAINING} less"))
    for number in (1, 2):
        requirement = f"PIN protocol {number} is supported if getInfo has it (6.4, member 06)."
        case = Case(f"truth/pin_protocol_{number}", "info", requirement, uses=[f"pin protocol {number}", "pin"])
        found.append(case.allocate().cbor(b"\x06" + encode({1: number, 2: 2})).expect("agreement"))
    return found
