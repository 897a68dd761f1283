"""Cases about authenticatorCredentialManagement."""

from __future__ import annotations

import hashlib
from typing import TYPE_CHECKING, Any, Dict, List, Optional

from hidlog_conformance.cases.corpus import RESET, Case, descriptor, user
from hidlog_conformance.cases.pin import GET, MAKE, PinCase
from hidlog_conformance.ctap_cbor import encode

if TYPE_CHECKING:
    from typing_extensions import Self

COMMAND = b"\x0a"
COUNT, RPS, NEXT_RP, CREDENTIALS, NEXT_CREDENTIAL, DELETE, UPDATE = range(1, 8)
MANAGE = 4
OTHER_RP = {"id": "example.org", "name": "Other"}


def rp_parameters(rp: str = "example.com") -> Dict[int, Any]:
    """Returns the parameters that name an RP."""
    return {1: hashlib.sha256(rp.encode()).digest()}


class ManageCase(PinCase):
    """A case with subcommands of credential management by a protocol."""

    def __init__(self, name: str, requirement: str, protocol: int, section: str = "manage") -> None:
        super().__init__(f"manage/{name}", section, requirement, protocol)
        self.comment("uses: credMgmt")
        self.comment("uses: rk")

    def manage(self, command: int, parameters: Optional[Dict[int, Any]] = None, auth: Optional[bytes] = b"") -> Self:
        """Sends a subcommand, with the token's pinUvAuthParam, other bytes, or none."""
        asked: Dict[int, Any] = {1: command}
        if parameters is not None:
            asked[2] = parameters
        if auth is not None:
            asked.update({3: self.protocol, 4: auth or b"=manage"})
        self.cbor(COMMAND + encode(asked))
        return self

    def go_on_listing(self, command: int) -> Self:
        """Continues an enumeration, which needs no token."""
        self.cbor(COMMAND + encode({1: command}))
        return self

    def get_management_token(self, rp: str = "") -> Self:
        """Gets a token with the permission cm."""
        return self.token(permissions=MANAGE, rp=rp)

    def register_discoverable(self, *users: int, **more: Any) -> Self:
        """Registers discoverable credentials, before a PIN is set."""
        for number in users:
            self.register(number, rk=True, p3=user(number), **more)
        return self

    def register_at_several(self) -> Self:
        """Registers three credentials of one RP, one of another RP, and two that are not discoverable."""
        self.register_discoverable(1, 2, 3).register_discoverable(4, p2=OTHER_RP).register(5)
        return self.register(6, p2={"id": "hidden.example", "name": "x"})


def count_cases(protocol: int) -> List[Case]:
    """Returns cases about the number of credentials."""
    cases: List[Case] = []
    case = ManageCase("count", "The metadata has the number of discoverable credentials.", protocol)
    cases.append(
        case.register_at_several().set_new_pin().get_management_token().manage(COUNT).expect("managed count 4")
    )
    case = ManageCase("count_of_none", "Without credentials the number is 0.", protocol)
    cases.append(case.set_new_pin().get_management_token().manage(COUNT).expect("managed count 0"))
    case = ManageCase("count_after_replacing", "A replaced credential is not counted.", protocol)
    case.register_discoverable(1).register(2, rk=True, p3=user(1)).set_new_pin()
    cases.append(case.get_management_token().manage(COUNT).expect("managed count 1"))
    case = ManageCase("count_after_reset", "After a reset the number is 0.", protocol, "reset")
    case.register_discoverable(1).cbor(RESET).presence().expect("status 00").set_new_pin()
    cases.append(case.get_management_token().manage(COUNT).expect("managed count 0"))
    return cases


def listing_cases(protocol: int) -> List[Case]:
    """Returns cases about enumerations of RPs and credentials."""
    cases: List[Case] = []
    case = ManageCase("rps", "Each RP with a discoverable credential is listed once.", protocol)
    case.register_at_several().set_new_pin()
    case.get_management_token().manage(RPS).expect("managed rps 2").go_on_listing(NEXT_RP).expect("managed rp")
    cases.append(case.go_on_listing(NEXT_RP).expect("status 30"))
    case = ManageCase("rps_of_one", "A single RP is listed.", protocol)
    case.register_discoverable(1).set_new_pin().get_management_token().manage(RPS).expect("managed rps 1")
    cases.append(case.go_on_listing(NEXT_RP).expect("status 30"))
    case = ManageCase("rps_of_none", "Without a discoverable credential the status is 2e.", protocol)
    cases.append(case.register(1).set_new_pin().get_management_token().manage(RPS).expect("status 2e"))
    case = ManageCase("credentials", "Each discoverable credential of an RP is listed once.", protocol)
    case.register_at_several().set_new_pin().get_management_token()
    case.manage(CREDENTIALS, rp_parameters()).expect("managed credentials 3")
    for _ in range(2):
        case.go_on_listing(NEXT_CREDENTIAL).expect("managed credential")
    cases.append(case.go_on_listing(NEXT_CREDENTIAL).expect("status 30"))
    case = ManageCase("credentials_of_one", "A single credential is listed.", protocol)
    case.register_discoverable(1).set_new_pin().get_management_token().manage(CREDENTIALS, rp_parameters()).expect(
        "managed credentials 1"
    )
    cases.append(case.go_on_listing(NEXT_CREDENTIAL).expect("status 30"))
    case = ManageCase("credentials_of_a_token_s_rp", "A token for an RP can list its credentials.", protocol)
    case.register_discoverable(1).set_new_pin().get_management_token("example.com")
    cases.append(case.manage(CREDENTIALS, rp_parameters()).expect("managed credentials 1"))
    case = ManageCase("credentials_of_none", "For an RP without a credential the status is 2e.", protocol)
    case.register_discoverable(1).set_new_pin().get_management_token().manage(CREDENTIALS, rp_parameters("example.org"))
    cases.append(case.expect("status 2e"))
    for name, command in (("rp", NEXT_RP), ("credential", NEXT_CREDENTIAL)):
        case = ManageCase(f"next_{name}_alone", "The next item without an enumeration is refused.", protocol)
        cases.append(case.register_discoverable(1).set_new_pin().go_on_listing(command).expect("status 30"))
    case = ManageCase("protection", "The credProtect level of a credential is listed.", protocol)
    case.comment("uses: extension credProtect")
    case.make(p6={"credProtect": 2}, p7={"rk": True}).expect_credential(1, "up extension credProtect 02").set_new_pin()
    cases.append(
        case.get_management_token().manage(CREDENTIALS, rp_parameters()).expect("managed credentials 1 protect 2")
    )
    return cases


def change_cases(protocol: int) -> List[Case]:
    """Returns cases about deletions, and updates of user information."""
    cases: List[Case] = []
    case = ManageCase("delete", "A deleted credential is gone, and others stay.", protocol)
    case.register_discoverable(1, 2).set_new_pin().get_management_token().manage(DELETE, {2: descriptor(1)}).expect(
        "status 00"
    )
    case.get_management_token().manage(CREDENTIALS, rp_parameters()).expect("managed credentials 1")
    case.get(p3=[descriptor(1)]).expect("status 2e")
    cases.append(case.get(p3=[descriptor(2)]).expect_assertion("up counter-rises"))
    case = ManageCase("delete_the_last", "After the last credential is deleted, none is left.", protocol)
    case.register_discoverable(1).set_new_pin().get_management_token().manage(DELETE, {2: descriptor(1)}).expect(
        "status 00"
    )
    cases.append(case.get_management_token().manage(COUNT).expect("managed count 0").get().expect("status 2e"))
    case = ManageCase("delete_what_isn_t_there", "For an unknown credential the status is 2e.", protocol)
    case.register_discoverable(1).set_new_pin().get_management_token().manage(DELETE, {2: descriptor(9)}).expect(
        "status 2e"
    )
    cases.append(case.get_management_token().manage(COUNT).expect("managed count 1"))
    new = {"id": b"\1", "name": "renamed", "displayName": "Renamed"}
    for name, more in (("update", new), ("update_to_no_display_name", {"id": b"\1", "name": "renamed"})):
        case = ManageCase(name, "User information can be updated.", protocol)
        case.register_discoverable(1).set_new_pin().get_management_token().manage(
            UPDATE, {2: descriptor(1), 3: more}
        ).expect("status 00")
        case.get_management_token().manage(CREDENTIALS, rp_parameters()).expect("managed credentials 1 name renamed")
        cases.append(case.get(p3=[descriptor(1)]).expect_assertion("up counter-rises user 01"))
    case = ManageCase("update_what_isn_t_there", "For an unknown credential the status is 2e.", protocol)
    case.register_discoverable(1).set_new_pin().get_management_token().manage(UPDATE, {2: descriptor(9), 3: new})
    cases.append(case.expect("status 2e"))
    case = ManageCase("update_of_another_user", "An update with another user ID is refused.", protocol)
    case.register_discoverable(1).set_new_pin().get_management_token().manage(
        UPDATE, {2: descriptor(1), 3: {**new, "id": b"\2"}}
    )
    case.expect("status 02").get_management_token().manage(CREDENTIALS, rp_parameters())
    cases.append(case.expect("managed credentials 1 name user1"))
    return cases


def refusal_cases(protocol: int) -> List[Case]:
    """Returns cases about requests without a token, with a wrong one, or with missing parameters."""
    cases: List[Case] = []
    asked: Dict[str, Any] = {
        "count": (COUNT, None),
        "rps": (RPS, None),
        "credentials": (CREDENTIALS, rp_parameters()),
        "delete": (DELETE, {2: descriptor(1)}),
        "update": (UPDATE, {2: descriptor(1), 3: user(1)}),
    }
    wrong = bytes(16 if protocol == 1 else 32)
    for name, (command, parameters) in asked.items():
        case = ManageCase(f"{name}_without_token", "Without a token the status is 36.", protocol)
        cases.append(
            case.register_discoverable(1)
            .set_new_pin()
            .manage(command, parameters, None)
            .expect("status 36")
            .expect_alive()
        )
        case = ManageCase(f"{name}_not_authentic", "A wrong pinUvAuthParam is refused.", protocol)
        case.register_discoverable(1).set_new_pin().get_management_token().manage(command, parameters, wrong).expect(
            "status 33"
        )
        cases.append(case.get_management_token().manage(COUNT).expect("managed count 1"))
        case = ManageCase(f"{name}_not_permitted", "A token without the permission cm is refused.", protocol)
        case.register_discoverable(1).set_new_pin().token(permissions=MAKE | GET).manage(command, parameters)
        cases.append(case.expect("status 33"))
        case = ManageCase(f"{name}_of_another_rp", "A token for another RP is refused.", protocol)
        case.register_discoverable(1).set_new_pin().get_management_token("example.org").manage(command, parameters)
        cases.append(case.expect("status 33"))
    for name, command in (("credentials", CREDENTIALS), ("delete", DELETE), ("update", UPDATE)):
        case = ManageCase(f"{name}_without_parameters", "A subcommand without its parameters is refused.", protocol)
        cases.append(
            case.register_discoverable(1).set_new_pin().get_management_token().manage(command).expect("status 14")
        )
    case = ManageCase("unknown", "An unknown subcommand is refused.", protocol)
    cases.append(case.set_new_pin().get_management_token().manage(0x7F).expect("refused 3e").expect_alive())
    return cases


def cases() -> List[Case]:
    """Returns the cases of this file."""
    found: List[Case] = []
    for protocol in (1, 2):
        found += count_cases(protocol) + listing_cases(protocol) + change_cases(protocol) + refusal_cases(protocol)
    return found
