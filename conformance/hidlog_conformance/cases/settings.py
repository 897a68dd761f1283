"""Cases about authenticatorConfig, enterprise attestation, the minimum PIN length and its extension, forced changes of
the PIN, and a blocked PIN."""

from __future__ import annotations

from typing import TYPE_CHECKING, Any, Dict, List, Optional

from hidlog_conformance.cases.corpus import INFO, RESET, Case
from hidlog_conformance.cases.pin import GET, MAKE, OTHER, RIGHT, WRONG, PinCase
from hidlog_conformance.ctap_cbor import encode

if TYPE_CHECKING:
    from typing_extensions import Self

COMMAND, CONFIGURE = b"\x0d", 0x20
ENTERPRISE, ALWAYS_UV, MIN_PIN_LENGTH, UNKNOWN = 1, 2, 3, 0x7E
LONG_PIN, RAISED, IN_A_ROW, RETRIES = b"1234567890", 10, 3, 8
# Members of getInfo: forcePINChange and minPINLength.
FORCED, LENGTH = "0c", "0d"
EXTENSION, RP, OTHER_RP = "minPinLength", "example.com", "example.org"
LENGTH_OUTPUT, NO_LENGTH_OUTPUT = f"up uv extension {EXTENSION} {RAISED:02x}", f"up uv no-extension {EXTENSION}"
# The member maxRPIDsForSetMinPINLength of getInfo.
MAX_RP_IDS = "10"


class ConfigCase(PinCase):
    """A case with subcommands of authenticatorConfig by a protocol."""

    def __init__(self, name: str, requirement: str, protocol: int, section: str = "config", *options: str) -> None:
        super().__init__(f"config/{name}", section, requirement, protocol)
        for option in ("authnrCfg", *options):
            self.comment(f"uses: option {option}")

    def configure(self, command: int, parameters: Optional[Dict[int, Any]] = None, auth: Optional[bytes] = b"") -> Self:
        """Sends a subcommand, with the token's pinUvAuthParam, other bytes, or none."""
        asked: Dict[int, Any] = {1: command}
        if parameters is not None:
            asked[2] = parameters
        if auth is not None:
            asked.update({3: self.protocol, 4: auth or b"=config"})
        self.cbor(COMMAND + encode(asked))
        return self

    def get_config_token(self) -> Self:
        """Gets a token with the permission acfg."""
        return self.token(permissions=CONFIGURE, rp="")

    def expect_info(self, *expected: str) -> Self:
        """Asks for getInfo."""
        for text in expected:
            self.cbor(INFO).expect(text)
        return self


def min_pin_cases(protocol: int) -> List[Case]:
    """Returns cases about setMinPINLength (6.11.4)."""
    cases: List[ConfigCase] = []

    def add(name: str, requirement: str, section: str = "config") -> ConfigCase:
        """Returns a new case."""
        cases.append(ConfigCase(name, requirement, protocol, section, "setMinPINLength"))
        cases[-1].comment(f"uses: minPINLength {RAISED - 1}")
        return cases[-1]

    case = add("min_pin_length", "minPINLength can be raised, and getInfo shows it (6.11.4).")
    case.set_new_pin(LONG_PIN).token(pin=LONG_PIN, permissions=CONFIGURE, rp="").configure(MIN_PIN_LENGTH, {1: RAISED})
    case.expect("status 00").expect_info(f"member {LENGTH} {RAISED}", f"member {FORCED} false")
    case.agree().change(LONG_PIN, b"54321").expect("status 37")
    case = add("min_pin_length_not_lowered", "minPINLength cannot be lowered (6.11.4).")
    case.set_new_pin(LONG_PIN).token(pin=LONG_PIN, permissions=CONFIGURE, rp="").configure(MIN_PIN_LENGTH, {1: RAISED})
    case.expect("status 00").token(pin=LONG_PIN, permissions=CONFIGURE, rp="").configure(
        MIN_PIN_LENGTH, {1: RAISED - 1}
    )
    case.expect("status 37").expect_info(f"member {LENGTH} {RAISED}")
    case = add("short_pin_must_change", "A PIN below a raised minPINLength must be changed (6.11.4).")
    case.set_new_pin().get_config_token().configure(MIN_PIN_LENGTH, {1: RAISED}).expect("status 00").expect_info(
        f"member {FORCED} true"
    )
    case.ask_token().expect("refused 37").change(RIGHT, LONG_PIN).expect("status 00").expect_info(
        f"member {FORCED} false"
    )
    case.token(pin=LONG_PIN)
    case = add("forced_change", "With forceChangePin no token is issued before the PIN is changed (6.5.5.7).", "pin")
    case.set_new_pin().get_config_token().configure(MIN_PIN_LENGTH, {3: True}).expect("status 00").expect_info(
        f"member {FORCED} true"
    )
    case.ask_token().expect("refused 37").change(RIGHT, OTHER).expect("status 00").expect_info(f"member {FORCED} false")
    case.token(pin=OTHER)
    case = add("forced_change_to_the_same", "A forced change to the same PIN is refused (6.5.5.6).", "pin")
    case.set_new_pin().get_config_token().configure(MIN_PIN_LENGTH, {3: True}).expect("status 00")
    case.change(RIGHT, RIGHT).expect("refused 37").expect_info(f"member {FORCED} true")
    case = add("forced_without_pin", "forceChangePin without a PIN is refused (6.11.4).")
    case.configure(MIN_PIN_LENGTH, {3: True}, None).expect("refused 35").expect_info(f"member {FORCED} false")
    case = add("reset", "A reset restores minPINLength and forcePINChange (6.6).", "reset")
    case.expect_info(f"member {LENGTH} any").set_new_pin().get_config_token().configure(
        MIN_PIN_LENGTH, {1: RAISED}
    ).expect("status 00")
    case.expect_info(f"member {LENGTH} {RAISED}").cbor(RESET).presence().expect("status 00")
    case.expect_info(f"member {LENGTH} less", f"member {FORCED} false")
    return list(cases)


def always_uv_cases(protocol: int) -> List[Case]:
    """Returns cases about toggleAlwaysUv (6.11.2)."""
    case = ConfigCase("always_uv", "alwaysUv can be turned on, and then requests need a token (6.11.2).", protocol)
    case.comment("uses: option alwaysUv")
    case.set_new_pin().get_config_token().configure(ALWAYS_UV).expect("status 00").expect_info("option alwaysUv true")
    return [case.make().expect("refused 36").get().expect("refused 36")]


def enterprise_cases(protocol: int) -> List[Case]:
    """Returns cases about enterprise attestation (6.1.2, step 9; 6.11.1)."""
    cases: List[Case] = []
    for name, kind, words in (("enterprise", 2, "up uv ep"), ("enterprise_of_vendor", 1, "up uv")):
        case = ConfigCase(name, "Enabled enterprise attestation is accepted (6.1.2, step 9).", protocol, "make", "ep")
        case.set_new_pin().get_config_token().configure(ENTERPRISE).expect("status 00").expect_info("option ep true")
        cases.append(case.token().register_with_token(p10=kind).expect_credential(1, words))
    case = ConfigCase(
        "enterprise_3", "An unknown enterpriseAttestation is refused (6.1.2, step 9).", protocol, "make", "ep"
    )
    case.set_new_pin().get_config_token().configure(ENTERPRISE).expect("status 00")
    cases.append(case.token().register_with_token(p10=3).expect("status 2c"))
    case = ConfigCase(
        "enterprise_disabled", "Disabled enterprise attestation is refused (6.1.2, step 9).", protocol, "make", "ep"
    )
    cases.append(case.expect_info("option ep false").make(p10=2).expect("status 02"))
    case = ConfigCase("enterprise_reset", "A reset disables enterprise attestation (6.6).", protocol, "reset", "ep")
    case.set_new_pin().get_config_token().configure(ENTERPRISE).expect("status 00").cbor(RESET).presence().expect(
        "status 00"
    )
    cases.append(case.expect_info("option ep false").make(p10=2).expect("status 02"))
    return cases


def refusal_cases(protocol: int) -> List[Case]:
    """Returns cases about requests without a token, with a wrong one, or with an unknown subcommand (6.11)."""
    cases: List[Case] = []
    asked: Dict[str, Any] = {
        "enterprise": (ENTERPRISE, None, "ep"),
        "always_uv": (ALWAYS_UV, None, "alwaysUv"),
        "min_pin_length": (MIN_PIN_LENGTH, {1: RAISED}, "setMinPINLength"),
    }
    wrong = bytes(16 if protocol == 1 else 32)
    for name, (command, parameters, option) in asked.items():
        shown = f"option {option} false" if option != "setMinPINLength" else f"member {FORCED} false"
        case = ConfigCase(
            f"{name}_without_token", "Without a token the status is 36 (6.11).", protocol, "config", option
        )
        cases.append(case.set_new_pin().configure(command, parameters, None).expect("status 36").expect_info(shown))
        case = ConfigCase(
            f"{name}_not_authentic", "A wrong pinUvAuthParam is refused (6.11).", protocol, "config", option
        )
        cases.append(
            case.set_new_pin()
            .get_config_token()
            .configure(command, parameters, wrong)
            .expect("status 33")
            .expect_info(shown)
        )
        case = ConfigCase(
            f"{name}_not_permitted",
            "A token without the permission acfg is refused (6.11).",
            protocol,
            "config",
            option,
        )
        case.set_new_pin().token(permissions=MAKE | GET).configure(command, parameters).expect("status 33")
        cases.append(case.expect_info(shown))
    case = ConfigCase("unknown", "An unknown subcommand is refused (6.11).", protocol)
    cases.append(case.set_new_pin().get_config_token().configure(UNKNOWN).expect("refused 02").expect_alive())
    case = ConfigCase("without_subcommand", "A request without a subcommand is refused (6.11).", protocol)
    cases.append(case.cbor(COMMAND + b"\xa0").expect("refused 14").expect_alive())
    return cases


def block_pin(case: PinCase) -> PinCase:
    """Sends wrong PINs until the PIN is blocked, and power cycles the device."""
    for number in range(1, RETRIES + 1):
        # The status of the last try, and of the last before a power cycle.
        status = "32" if number == RETRIES else "34" if number % IN_A_ROW == 0 else "31"
        case.ask_token(WRONG).expect(f"status {status}")
        if number % IN_A_ROW == 0:
            case.power_cycle().allocate()
    case.power_cycle().allocate()
    return case


def blocked_cases(protocol: int) -> List[Case]:
    """Returns cases about a PIN without retries (6.5.5.7, steps of both token subcommands)."""
    cases: List[Case] = []
    for name in ("token", "change", "reset"):
        section = "reset" if name == "reset" else "pin"
        case = PinCase(
            f"blocked/{name}", section, "A PIN without retries is blocked until a reset (6.5.5.7).", protocol
        )
        case.comment("needs: power cycle")
        block_pin(case.set_new_pin().pin(1).expect("retries 8"))
        if name == "token":
            case.pin(1).expect("retries 0").ask_token().expect("status 32")
        elif name == "change":
            case.change(RIGHT, OTHER).expect("status 32")
        else:
            case.cbor(RESET).presence().expect("status 00").set_new_pin(OTHER).token(pin=OTHER)
        cases.append(case)
    return cases


class LengthCase(ConfigCase):
    """A case with RPs that are authorized to get the minimum PIN length."""

    def __init__(self, name: str, requirement: str, protocol: int, section: str = "pin length") -> None:
        super().__init__(f"rp_ids_{name}", requirement, protocol, section, "setMinPINLength")
        self.comment(f"uses: minPINLength {RAISED - 1}")
        self.comment(f"uses: extension {EXTENSION}")

    def authorize_rps(self, *rps: str) -> Self:
        """Sets a PIN, minPINLength and minPinLengthRPIDs."""
        self.set_new_pin(LONG_PIN).token(pin=LONG_PIN, permissions=0x20, rp="")
        return self.configure(MIN_PIN_LENGTH, {1: RAISED, 2: list(rps)}).expect("status 00")

    def ask(self, words: str, number: int = 1) -> Self:
        """Registers with the extension."""
        return self.token(pin=LONG_PIN).register_with_token(p6={EXTENSION: True}).expect_credential(number, words)


def length_cases(protocol: int) -> List[Case]:
    """Returns cases about the extension minPinLength, by which authorized RPs get the minimum PIN length (12.4)."""
    cases: List[LengthCase] = []

    def add(name: str, requirement: str, section: str = "pin length") -> LengthCase:
        """Returns a new case."""
        cases.append(LengthCase(name, requirement, protocol, section))
        return cases[-1]

    add("authorized", "An authorized RP gets minPINLength.").authorize_rps(RP).ask(LENGTH_OUTPUT)
    add("one_of_two", "Each authorized RP gets minPINLength.").authorize_rps(OTHER_RP, RP).ask(LENGTH_OUTPUT)
    add("not_authorized", "Another RP does not get minPINLength.").authorize_rps(OTHER_RP).ask(NO_LENGTH_OUTPUT)
    case = add("not_requested", "minPINLength is returned only if the extension is requested.").authorize_rps(RP)
    case.token(pin=LONG_PIN).register_with_token().expect_credential(1, NO_LENGTH_OUTPUT)
    case = add("replaced", "A later minPinLengthRPIDs replaces the earlier one (6.11.4).").authorize_rps(RP)
    case.token(pin=LONG_PIN, permissions=0x20, rp="").configure(MIN_PIN_LENGTH, {2: [OTHER_RP]}).expect("status 00")
    case.ask(NO_LENGTH_OUTPUT)
    case = add("set_alone", "minPinLengthRPIDs can be set without a new minPINLength (6.11.4).").authorize_rps(OTHER_RP)
    case.token(pin=LONG_PIN, permissions=0x20, rp="").configure(MIN_PIN_LENGTH, {2: [RP]}).expect("status 00").ask(
        LENGTH_OUTPUT
    )
    case = add("kept", "The authorized RPs survive a power cycle.")
    case.comment("needs: power cycle")
    case.authorize_rps(RP).power_cycle().allocate().ask(LENGTH_OUTPUT)
    case = add("reset", "A reset restores the authorized RPs (6.6).", "reset").authorize_rps(RP)
    case.cbor(RESET).presence().expect("status 00").set_new_pin(LONG_PIN).ask(NO_LENGTH_OUTPUT)
    case = add("shown", "With the extension getInfo has maxRPIDsForSetMinPINLength (6.4, member 10).", "info")
    case.expect_info(f"member {MAX_RP_IDS} any")
    return list(cases)


def cases_without_extension(protocol: int) -> List[Case]:
    """Returns a case about minPinLengthRPIDs without the extension, which is refused (6.11.4, step 2)."""
    requirement = "minPinLengthRPIDs is refused without the extension minPinLength (6.11.4)."
    case = ConfigCase("rp_ids_without_extension", requirement, protocol, "config", "setMinPINLength")
    case.comment(f"uses: no extension {EXTENSION}")
    case.set_new_pin().get_config_token().configure(MIN_PIN_LENGTH, {2: [RP]}).expect("refused 02").expect_alive()
    return [case]


def cases() -> List[Case]:
    """Returns the cases of this file."""
    found: List[Case] = []
    for protocol in (1, 2):
        found += min_pin_cases(protocol) + always_uv_cases(protocol) + enterprise_cases(protocol)
        found += refusal_cases(protocol) + blocked_cases(protocol)
        found += length_cases(protocol) + cases_without_extension(protocol)
    return found
