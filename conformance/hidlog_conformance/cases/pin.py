"""Cases about authenticatorClientPIN, permissions of tokens, and extensions."""

from __future__ import annotations

from typing import TYPE_CHECKING, Any, Dict, List, Tuple

from hidlog_conformance.cases.corpus import INFO, RESET, Case, descriptor
from hidlog_conformance.ctap_cbor import encode

if TYPE_CHECKING:
    from typing_extensions import Self

PIN = b"\x06"
MAKE, GET = 1, 2
RIGHT, OTHER, WRONG = b"1234", b"567890", b"9999"


def required_features(protocol: int) -> Dict[str, Any]:
    """Returns the requirements of cases with a PIN protocol."""
    return {"needs": ["touch", "reset"], "uses": ["pin token", f"pin protocol {protocol}"]}


class PinCase(Case):
    """A case with PIN commands of one protocol."""

    def __init__(self, name: str, section: str, requirement: str, protocol: int) -> None:
        super().__init__(f"{name}_{protocol}", section, requirement, **required_features(protocol))
        self.protocol = protocol
        self.allocate()

    def pin(self, command: int, **members: Any) -> Self:
        """Sends a subcommand with parameters p3, p4 .."""
        asked = {1: self.protocol, 2: command, **{int(name[1:]): value for name, value in members.items()}}
        self.cbor(PIN + encode(asked))
        return self

    def agree(self) -> Self:
        """Gets the key agreement key."""
        self.pin(2).expect("agreement")
        return self

    def set(self, pin: bytes = RIGHT, auth: bytes = b"=auth:5") -> Self:
        """Sets a PIN."""
        return self.agree().pin(3, p3=b"=agreement", p4=auth, p5=b"=encrypt:" + pin.ljust(64, b"\0"))

    def set_new_pin(self, pin: bytes = RIGHT) -> Self:
        """Sets a PIN successfully."""
        self.set(pin).expect("status 00")
        return self

    def change(self, old: bytes, new: bytes) -> Self:
        """Changes the PIN."""
        padded = b"=encrypt:" + new.ljust(64, b"\0")
        return self.agree().pin(4, p3=b"=agreement", p4=b"=auth:5+6", p5=padded, p6=b"=hash:" + old)

    def ask_token(self, pin: bytes = RIGHT, permissions: int = MAKE | GET, rp: str = "example.com") -> Self:
        """Exchanges the PIN for a token."""
        more = {"p10": rp} if rp else {}
        return self.agree().pin(9, p3=b"=agreement", p6=b"=hash:" + pin, p9=permissions, **more)

    def token(self, **more: Any) -> Self:
        """Gets a token."""
        self.ask_token(**more).expect("token")
        return self

    def register_with_token(self, **more: Any) -> Self:
        """Registers with the token."""
        self.make(p8=b"=token:1", p9=self.protocol, **more)
        return self

    def sign_in_with_token(self, **more: Any) -> Self:
        """Signs in with the token."""
        self.get(p6=b"=token:2", p7=self.protocol, **more)
        return self


def set_pin_cases(protocol: int) -> List[Case]:
    """Returns cases about setPIN and changePIN."""
    cases: List[Case] = []
    case = PinCase("pin/set", "pin", "A PIN can be set, and getInfo shows it.", protocol)
    cases.append(case.set_new_pin().cbor(INFO).expect("option clientPin true"))
    case = PinCase("pin/not_set", "pin", "Without a PIN no token is issued.", protocol)
    cases.append(case.ask_token().expect("status 35"))
    for name, pin in (("of_three", b"123"), ("empty", b""), ("of_two_letters", "éé".encode())):
        case = PinCase(f"pin/{name}", "pin", "A PIN of fewer than four characters is refused.", protocol)
        cases.append(case.set(pin).expect("status 37").cbor(INFO).expect("option clientPin false"))
    case = PinCase("pin/of_63", "pin", "A PIN of 63 bytes is accepted.", protocol)
    cases.append(case.set_new_pin(b"x" * 63).token(pin=b"x" * 63))
    case = PinCase("pin/wrong_authentication", "pin", "A wrong pinUvAuthParam is refused.", protocol)
    wrong = bytes(16 if protocol == 1 else 32)
    cases.append(case.set(auth=wrong).expect("status 33").cbor(INFO).expect("option clientPin false"))
    case = PinCase("pin/set_twice", "pin", "A PIN cannot be set twice.", protocol)
    cases.append(case.set_new_pin().set(OTHER).expect("status 33").token())
    case = PinCase("pin/change", "pin", "After a change only the new PIN is accepted.", protocol)
    case.set_new_pin().change(RIGHT, OTHER).expect("status 00")
    cases.append(case.ask_token(RIGHT).expect("status 31").token(pin=OTHER))
    case = PinCase("pin/change_by_a_wrong_one", "pin", "A change with a wrong PIN is refused.", protocol)
    cases.append(case.set_new_pin().change(WRONG, OTHER).expect("status 31").token())
    case = PinCase("pin/reset", "pin", "A reset removes the PIN.", protocol)
    case.set_new_pin().cbor(RESET).presence().expect("status 00").cbor(INFO).expect("option clientPin false")
    cases.append(case.set_new_pin(OTHER).token(pin=OTHER))
    return cases


def wrong_pin_cases(protocol: int) -> List[Case]:
    """Returns cases about wrong PINs and retries."""
    cases: List[Case] = []
    case = PinCase(
        "pin/retries", "pin", "A wrong PIN decrements the retries, and the right one restores them.", protocol
    )
    case.set_new_pin().pin(1).expect("retries 8").ask_token(WRONG).expect("status 31").pin(1).expect("retries 7")
    cases.append(case.token().pin(1).expect("retries 8"))
    case = PinCase("pin/three_wrong", "pin", "After three consecutive wrong PINs a power cycle is required.", protocol)
    case.set_new_pin().pin(1).expect("retries 8")
    for status in ("31", "31", "34"):
        case.ask_token(WRONG).expect(f"status {status}")
    cases.append(case.ask_token().expect("status 34").pin(1).expect("retries 5"))
    case = PinCase("pin/key_renewed", "pin", "After a wrong PIN the key agreement key is new.", protocol)
    case.set_new_pin().ask_token(WRONG).expect("status 31").pin(
        9, p3=b"=agreement", p6=b"=hash:" + RIGHT, p9=3, p10="a.b"
    )
    cases.append(case.expect("status 31"))
    return cases


def token_cases(protocol: int) -> List[Case]:
    """Returns cases about permissions of tokens."""
    cases: List[Case] = []
    case = PinCase("pin/registers", "make", "With a token flag UV is set.", protocol)
    cases.append(case.set_new_pin().token().register_with_token().expect_credential(1, "up uv"))
    case = PinCase("pin/signs_in", "get", "With a token flag UV is set.", protocol)
    case.set_new_pin().token().register_with_token().expect_credential(1, "up uv")
    cases.append(case.token().sign_in_with_token(p3=[descriptor(1)]).expect_assertion("up uv counter-rises"))
    case = PinCase("pin/old_token", "get", "A token from getPinToken can register and sign in.", protocol)
    case.set_new_pin().agree().pin(5, p3=b"=agreement", p6=b"=hash:" + RIGHT).expect("token")
    case.register_with_token().expect_credential(1, "up uv").agree().pin(
        5, p3=b"=agreement", p6=b"=hash:" + RIGHT
    ).expect("token")
    cases.append(case.sign_in_with_token(p3=[descriptor(1)]).expect_assertion("up uv counter-rises"))
    case = PinCase(
        "pin/discoverable_needs_it", "make", "With a PIN set, a discoverable credential needs a token.", protocol
    )
    cases.append(case.set_new_pin().make(p7={"rk": True}).expect("refused 36").expect_alive())
    case = PinCase("pin/sign_in_without", "get", "Without a token flag UV is not set in a sign-in.", protocol)
    case.set_new_pin().token().register_with_token().expect_credential(1, "up uv").get(p3=[descriptor(1)])
    cases.append(case.expect_assertion("up no-uv counter-rises"))
    refused: Dict[str, Tuple[str, Dict[str, Any]]] = {
        "of_another_rp": ("for another RP", {"rp": "example.org"}),
        "that_signs_in": ("with only the permission ga", {"permissions": GET}),
    }
    for name, (token, more) in refused.items():
        case = PinCase(f"pin/token_{name}", "make", f"A token {token} cannot register.", protocol)
        cases.append(case.set_new_pin().token(**more).register_with_token().expect("status 33"))
    case = PinCase("pin/token_that_registers", "get", "A token with only the permission mc cannot sign in.", protocol)
    case.set_new_pin().token().register_with_token().expect_credential(1, "up uv").token(permissions=MAKE)
    cases.append(case.sign_in_with_token(p3=[descriptor(1)]).expect("status 33"))
    wrong = bytes(16 if protocol == 1 else 32)
    case = PinCase("pin/wrong_param", "make", "A wrong pinUvAuthParam is refused in a registration.", protocol)
    cases.append(case.set_new_pin().token().make(p8=wrong, p9=protocol).expect("status 33"))
    case = PinCase("pin/wrong_param_of_sign_in", "get", "A wrong pinUvAuthParam is refused in a sign-in.", protocol)
    case.set_new_pin().token().register_with_token().expect_credential(1, "up uv").get(
        p3=[descriptor(1)], p6=wrong, p7=protocol
    )
    cases.append(case.expect("status 33"))
    return cases


def hmac_secret_cases(protocol: int) -> List[Case]:
    """Returns cases about hmac-secret."""
    cases: List[Case] = []
    asked: Dict[int, Any] = {1: b"=agreement", 2: b"=encrypt:" + b"1" * 32, 3: b"=auth:2", 4: protocol}
    other, two = {**asked, 2: b"=encrypt:" + b"2" * 32}, {**asked, 2: b"=encrypt:" + b"1" * 32 + b"2" * 32}
    case = PinCase(
        "secret/same", "secret", "The same salt gives the same secret, and another salt a different one.", protocol
    )
    case.comment("uses: extension hmac-secret")
    case.register(1, p6={"hmac-secret": True})
    for name, given in (("one", asked), ("one", asked), ("two", other)):
        case.agree().get(p3=[descriptor(1)], p4={"hmac-secret": given}).expect_assertion(f"up secret {name}")
    cases.append(case)
    case = PinCase("secret/of_two_salts", "secret", "Two salts give two secrets.", protocol)
    case.comment("uses: extension hmac-secret")
    case.register(1, p6={"hmac-secret": True}).agree()
    cases.append(case.get(p3=[descriptor(1)], p4={"hmac-secret": two}).expect_assertion("up secret both"))
    case = PinCase("secret/of_each_credential", "secret", "Each credential has different secrets.", protocol)
    case.comment("uses: extension hmac-secret")
    for number in (1, 2):
        case.register(number, p6={"hmac-secret": True}).agree()
        case.get(p3=[descriptor(number)], p4={"hmac-secret": asked}).expect_assertion(f"up secret of-{number}")
    cases.append(case)
    case = PinCase("secret/not_authentic", "secret", "A wrong saltAuth is refused.", protocol)
    case.comment("uses: extension hmac-secret")
    wrong = {**asked, 3: bytes(16 if protocol == 1 else 32)}
    case.register(1, p6={"hmac-secret": True}).agree().get(p3=[descriptor(1)], p4={"hmac-secret": wrong}).presence()
    cases.append(case.expect("status 33"))
    return cases


def extension_cases() -> List[Case]:
    """Returns cases about credProtect, credBlob, and hmac-secret at a registration."""
    cases: List[Case] = []
    found: Dict[str, Any] = {"needs": ["touch", "reset"], "uses": ["rk", "extension credProtect"]}
    for level in (1, 2, 3):
        case = Case(f"protect/level_{level}", "protect", "The credProtect level is returned.", **found)
        case.allocate().make(p6={"credProtect": level}, p7={"rk": True}).expect_credential(
            1, f"up extension credProtect 0{level}"
        )
        by_list, alone = case.get(p3=[descriptor(1)]), level < 2
        case = by_list.expect_assertion("up counter-rises") if level < 3 else by_list.expect("status 2e")
        case = case.get()
        cases.append(case.expect_assertion("up counter-rises") if alone else case.expect("status 2e"))
    blob: Dict[str, Any] = {"needs": ["touch", "reset"], "uses": ["rk", "extension credBlob"]}
    for name, data in (("kept", b"a blob"), ("of_32", bytes(range(32)))):
        case = Case(f"blob/{name}", "blob", "A credBlob is returned unchanged.", **blob)
        case.allocate().make(p6={"credBlob": data}, p7={"rk": True}).expect_credential(1, "up extension credBlob f5")
        case.get(p4={"credBlob": True})
        cases.append(case.expect_assertion(f"up extension credBlob {encode(data).hex()}"))
    for name, value in (("made", True), ("not_asked", False)):
        case = Case(f"secret/{name}", "secret", "A registration with hmac-secret returns true.", needs=["touch"])
        case.comment("uses: extension hmac-secret")
        words = "up extension hmac-secret f5" if value else "up"
        cases.append(case.allocate().make(p6={"hmac-secret": value}).expect_credential(1, words))
    return cases


def cases() -> List[Case]:
    """Returns the cases of this file."""
    found = extension_cases()
    for protocol in (1, 2):
        found += (
            set_pin_cases(protocol) + wrong_pin_cases(protocol) + token_cases(protocol) + hmac_secret_cases(protocol)
        )
    return found
