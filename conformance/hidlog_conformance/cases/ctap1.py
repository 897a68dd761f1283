"""Cases about U2F registrations and sign-ins of a device (10, and U2F raw message formats)."""

from __future__ import annotations

from typing import TYPE_CHECKING, List

from hidlog_conformance import hid_packets as hid
from hidlog_conformance.cases.corpus import Case

if TYPE_CHECKING:
    from typing_extensions import Self

CHALLENGE, APPLICATION, OTHER = b"\x11" * 32, b"\x22" * 32, b"\x33" * 32
HANDLE = b"a key handle of the session....."
REGISTER, AUTHENTICATE = 1, 2
# The control bytes check-only and enforce-user-presence-and-sign.
CHECK_ONLY, ENFORCE = 7, 3
WRONG_DATA, WRONG_LENGTH, NO_TOUCH = "6a80", "6700", "6985"


class U2fCase(Case):
    """A case with U2F requests."""

    def __init__(self, name: str, requirement: str) -> None:
        super().__init__(f"u2f/{name}", "ctap1", requirement, needs=["touch"], uses=["msg"])
        self.allocate()

    def apdu(self, instruction: int, control: int, data: bytes) -> Self:
        """Sends an extended APDU."""
        self.send(1, hid.MSG, bytes([0, instruction, control, 0, 0]) + len(data).to_bytes(2, "big") + data)
        return self

    def register_u2f(self) -> Self:
        """Registers with a touch."""
        self.apdu(REGISTER, 0, CHALLENGE + APPLICATION).expect(f"message 03 {NO_TOUCH}")
        self.presence()
        return self.apdu(REGISTER, 0, CHALLENGE + APPLICATION).expect(f"u2f_registered {HANDLE.hex()}")

    def sign(self, control: int = ENFORCE, application: bytes = APPLICATION, handle: bytes = HANDLE) -> Self:
        """Sends a sign-in."""
        return self.apdu(AUTHENTICATE, control, CHALLENGE + application + bytes([len(handle)]) + handle)


def cases() -> List[Case]:
    """Returns the cases of this file."""
    found: List[Case] = []
    case = U2fCase("registers", "A registration has a valid signature, and the touch counts for it alone.")
    case.register_u2f().apdu(REGISTER, 0, CHALLENGE + APPLICATION).expect(f"message 03 {NO_TOUCH}")
    found.append(case)
    case = U2fCase(
        "signs_in", "A sign-in has a valid signature and a counter that rises; the touch counts for it alone."
    )
    case.register_u2f()
    for _ in range(2):
        case.sign().expect(f"message 03 {NO_TOUCH}").presence()
        case.sign().expect(f"u2f_signed {HANDLE.hex()}")
    case.sign().expect(f"message 03 {NO_TOUCH}").sign(CHECK_ONLY).expect(f"message 03 {NO_TOUCH}")
    found.append(case.sign(ENFORCE, OTHER).expect(f"message 03 {WRONG_DATA}"))
    case = U2fCase("unknown_handle", "An unknown key handle returns 6a80.")
    found.append(case.sign(CHECK_ONLY).expect(f"message 03 {WRONG_DATA}"))
    case = U2fCase("unknown_handle_signs", "An unknown key handle signs nothing.")
    found.append(case.sign().expect(f"message 03 {WRONG_DATA}").expect_alive())
    case = U2fCase("other_application", "A key handle returns 6a80 for another application, and 6985 for its own.")
    case.register_u2f().sign(CHECK_ONLY, OTHER).expect(f"message 03 {WRONG_DATA}")
    case.sign(ENFORCE, OTHER).expect(f"message 03 {WRONG_DATA}").sign(CHECK_ONLY).expect(f"message 03 {NO_TOUCH}")
    found.append(case.presence().sign().expect(f"u2f_signed {HANDLE.hex()}"))
    case = U2fCase("short_registration", "A registration without an application returns 6700.")
    found.append(case.apdu(REGISTER, 0, CHALLENGE).expect(f"message 03 {WRONG_LENGTH}").expect_alive())
    case = U2fCase("long_registration", "A registration with additional bytes returns 6700.")
    found.append(
        case.apdu(REGISTER, 0, CHALLENGE + APPLICATION + b"x").expect(f"message 03 {WRONG_LENGTH}").expect_alive()
    )
    return found
