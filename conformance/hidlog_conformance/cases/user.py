"""Cases about built-in user verification, as by fingerprint."""

from __future__ import annotations

from typing import Any, Dict, List

from hidlog_conformance.cases.corpus import Case, descriptor, user
from hidlog_conformance.cases.pin import GET, MAKE, PinCase

VERIFIED: Dict[str, Any] = {"needs": ["touch"], "uses": ["uv"]}
NEW_TOUCH: Dict[str, Any] = {"needs": ["touch", "reset"], "uses": ["uv", "rk"]}
UV = {"uv": True}


class UserCase(PinCase):
    """A case with a token from built-in user verification."""

    def __init__(self, name: str, section: str, requirement: str, protocol: int) -> None:
        Case.__init__(self, f"user/{name}_{protocol}", section, requirement, needs=["touch"])
        for use in ("uv token", f"pin protocol {protocol}"):
            self.comment(f"uses: {use}")
        self.protocol = protocol
        self.allocate()

    def request_user_token(self, permissions: int = MAKE | GET, rp: str = "example.com") -> "UserCase":
        """Requests a token by built-in user verification."""
        self.agree().pin(6, p3=b"=agreement", p9=permissions, p10=rp)
        return self

    def get_user_token(self, permissions: int = MAKE | GET, rp: str = "example.com") -> "UserCase":
        """Gets a token by built-in user verification."""
        self.request_user_token(permissions, rp).presence().expect("token")
        return self


def option_cases() -> List[Case]:
    """Returns cases about requests with the option uv."""
    cases: List[Case] = []
    case = Case("user/registers", "make", "With the option uv flag UV is set.", **VERIFIED)
    cases.append(case.allocate().make(p7=UV).expect_credential(1, "up uv"))
    case = Case(
        "user/registers_discoverable",
        "make",
        "With the option uv flag UV is set for a discoverable credential.",
        **NEW_TOUCH,
    )
    case.allocate().make(p7={"rk": True, **UV}).expect_credential(1, "up uv")
    cases.append(case.get(p5=UV).expect_assertion("up uv counter-rises user 01"))
    case = Case("user/signs_in", "get", "With the option uv flag UV is set.", **VERIFIED)
    case.allocate().make(p7=UV).expect_credential(1, "up uv").get(p3=[descriptor(1)], p5=UV)
    cases.append(case.expect_assertion("up uv counter-rises"))
    case = Case("user/signs_in_twice", "get", "Each sign-in verifies the user again.", **VERIFIED)
    case.allocate().make(p7=UV).expect_credential(1, "up uv")
    for _ in range(2):
        case.get(p3=[descriptor(1)], p5=UV).expect("keepalive 02").expect_assertion("up uv counter-rises")
    cases.append(case)
    case = Case("user/needed", "make", "A registration without user verification is refused.", **VERIFIED)
    case.comment("uses: verified registrations")
    cases.append(case.allocate().make().expect("status 36").expect_alive())
    case = Case(
        "user/needed_for_discoverable",
        "make",
        "A discoverable registration without user verification is refused.",
        **VERIFIED,
    )
    case.comment("uses: rk")
    case.comment("uses: verified registrations")
    cases.append(case.allocate().make(p7={"rk": True}).expect("status 36").expect_alive())
    for kind in ("make", "get"):
        case = Case(
            f"user/denied_{kind}", kind, "Without user verification the request fails.", uses=["uv"], needs=["denial"]
        )
        case.allocate().make(p7=UV)
        if kind == "get":
            case.expect_credential(1, "up uv").get(p3=[descriptor(1)], p5=UV)
        cases.append(case.presence("denied").expect("refused 27").expect_alive())
    return cases


def account_cases() -> List[Case]:
    """Returns cases about several accounts, and credential protection."""
    cases: List[Case] = []
    requirement = "With user verification the names of several accounts are returned."
    case = Case("user/names_of_several", "get", requirement, **NEW_TOUCH, level="should")
    case.allocate()
    for number in (1, 2):
        case.make(p3=user(number), p7={"rk": True, **UV}).expect_credential(number, "up uv")
    case.get(p5=UV).expect_assertion("up uv counter-rises user 02 number 2 name user2")
    cases.append(case.cbor(b"\x08").expect_assertion("up uv counter-rises user 01 name user1", presence=False))
    for level in (2, 3):
        requirement = "With user verification credProtect hides no credential."
        case = Case(f"user/protected_{level}", "protect", requirement, **NEW_TOUCH)
        case.comment("uses: extension credProtect")
        case.allocate().make(p6={"credProtect": level}, p7={"rk": True, **UV})
        case.expect_credential(1, f"up uv extension credProtect 0{level}").get().expect("status 2e")
        case.get(p5=UV).expect_assertion("up uv counter-rises")
        cases.append(case.get(p3=[descriptor(1)], p5=UV).expect_assertion("up uv counter-rises"))
    return cases


def token_cases(protocol: int) -> List[Case]:
    """Returns cases about tokens by built-in user verification."""
    cases: List[Case] = []
    case = UserCase("token_registers", "pin", "The device verifies the user before it issues a token.", protocol)
    cases.append(case.get_user_token().register_with_token().expect_credential(1, "up uv"))
    case = UserCase(
        "token_signs_in", "pin", "The device verifies the user before it issues a token for a sign-in.", protocol
    )
    case.get_user_token().register_with_token().expect_credential(1, "up uv").get_user_token()
    cases.append(case.sign_in_with_token(p3=[descriptor(1)]).expect_assertion("up uv counter-rises"))
    case = UserCase("token_waits", "pin", "No token is issued before user verification.", protocol)
    case.request_user_token().expect("keepalive 02").tick(100).expect("nothing").presence()
    cases.append(case.expect("token"))
    for name, token, permissions, rp in (
        ("another_rp", "for another RP", MAKE | GET, "example.org"),
        ("sign_ins", "with only the permission ga", GET, "example.com"),
    ):
        case = UserCase(f"token_of_{name}", "make", f"A token {token} cannot register.", protocol)
        cases.append(case.get_user_token(permissions, rp).register_with_token().expect("status 33"))
    case = UserCase("token_of_nothing", "pin", "A token without permissions is refused.", protocol)
    cases.append(case.request_user_token(0).expect("status 02"))
    case = UserCase(
        "token_without_permissions", "pin", "A token request without the parameter permissions is refused.", protocol
    )
    cases.append(case.agree().pin(6, p3=b"=agreement").expect("status 14"))
    case = UserCase("retries", "pin", "The user verification retries are returned.", protocol)
    cases.append(case.pin(7).expect("user_retries").pin(7).expect("user_retries"))
    case = UserCase("retries_fall", "pin", "A failed user verification decrements the retries.", protocol)
    case.comment("needs: denial")
    case.pin(7).expect("user_retries").request_user_token().presence("denied").expect("status 3f")
    cases.append(case.pin(7).expect("user_retries less"))
    return cases


def cases() -> List[Case]:
    """Returns the cases of this file."""
    return option_cases() + account_cases() + token_cases(1) + token_cases(2)
