"""Cases about authenticatorBioEnrollment: fingerprints."""

from __future__ import annotations

from typing import TYPE_CHECKING, Any, Dict, List, Optional

from hidlog_conformance.cases.corpus import INFO, Case
from hidlog_conformance.cases.pin import GET, MAKE, PinCase
from hidlog_conformance.ctap_cbor import encode

if TYPE_CHECKING:
    from typing_extensions import Self

COMMAND, ENROLL, FINGERPRINT = b"\x09", 0x08, 1
BEGIN, NEXT_SAMPLE, CANCEL, ENUMERATE, RENAME, REMOVE, SENSOR = range(1, 8)
TEMPLATE, UNKNOWN_TEMPLATE = b"template" * 2, b"\x99" * 16
NAME = "right"


class EnrollCase(PinCase):
    """A case about authenticatorBioEnrollment by a PIN protocol, for devices that take three samples."""

    def __init__(self, name: str, requirement: str, protocol: int) -> None:
        super().__init__(f"enroll/{name}", "bio", requirement, protocol)
        self.comment("uses: option bioEnroll")

    def enroll(self, command: int, parameters: Optional[Dict[int, Any]] = None, auth: Optional[bytes] = b"") -> Self:
        """Sends a subcommand, with the token's pinUvAuthParam, other bytes, or none."""
        asked: Dict[int, Any] = {1: FINGERPRINT, 2: command}
        if parameters is not None:
            asked[3] = parameters
        if auth is not None:
            asked.update({4: self.protocol, 5: auth or b"=enroll"})
        self.cbor(COMMAND + encode(asked))
        return self

    def prepare_enrolment(self) -> Self:
        """Sets a PIN, asks for the number of samples, and gets a token with the permission be."""
        self.enroll(SENSOR, None, None).expect("sensor 3")
        return self.set_new_pin().token(permissions=ENROLL, rp="")

    def take_first_sample(self) -> Self:
        """Takes the first sample."""
        return self.enroll(BEGIN, {3: 10000}).presence().expect(f"sample as {TEMPLATE.hex()}")

    def enroll_finger(self) -> Self:
        """Enrols a finger by three samples."""
        self.take_first_sample()
        for number in (2, 3):
            self.enroll(NEXT_SAMPLE, {1: TEMPLATE, 3: 10000}).presence().expect(f"sample left {number}")
        return self


def template_cases(protocol: int) -> List[Case]:
    """Returns cases about enrolment, and changes of templates."""
    cases: List[Case] = []
    case = EnrollCase("whole", "A finger is enrolled by its samples, and listed (6.7.4, 6.7.6).", protocol)
    case.prepare_enrolment().cbor(INFO).expect("option bioEnroll false").enroll_finger().cbor(INFO).expect(
        "option bioEnroll true"
    )
    cases.append(case.enroll(ENUMERATE).expect(f"templates {TEMPLATE.hex()}"))
    case = EnrollCase("name", "A template can be named (6.7.7).", protocol)
    case.prepare_enrolment().enroll_finger().enroll(RENAME, {1: TEMPLATE, 2: NAME}).expect("status 00")
    cases.append(case.enroll(ENUMERATE).expect(f"templates {TEMPLATE.hex()} name {NAME}"))
    case = EnrollCase("removed", "A template can be removed (6.7.8).", protocol)
    case.prepare_enrolment().enroll_finger().enroll(REMOVE, {1: TEMPLATE}).expect("status 00")
    cases.append(case.enroll(ENUMERATE).expect("status 2c").cbor(INFO).expect("option bioEnroll false"))
    case = EnrollCase("cancelled", "A cancelled enrolment leaves no template, and needs no token (6.7.5).", protocol)
    case.prepare_enrolment().take_first_sample().enroll(CANCEL, None, None).expect("status 00")
    case.enroll(NEXT_SAMPLE, {1: TEMPLATE, 3: 10000}).expect("refused 30 or touch")
    cases.append(case.enroll(ENUMERATE).expect("status 2c"))
    case = EnrollCase("half", "An incomplete enrolment is not listed (6.7.4).", protocol)
    cases.append(case.prepare_enrolment().take_first_sample().enroll(ENUMERATE).expect("status 2c"))
    case = EnrollCase("none", "Without a template the status is 2c (6.7.6).", protocol)
    cases.append(case.prepare_enrolment().enroll(ENUMERATE).expect("status 2c").expect_alive())
    for name, command in (("name", RENAME), ("remove", REMOVE)):
        case = EnrollCase(f"{name}_unknown", "An unknown template is refused (6.7.7, 6.7.8).", protocol)
        cases.append(
            case.prepare_enrolment().enroll(command, {1: UNKNOWN_TEMPLATE, 2: NAME}).expect("status 2c").expect_alive()
        )
    return cases


def refusal_cases(protocol: int) -> List[Case]:
    """Returns cases about requests without a token, or with a wrong one (6.7.4 to 6.7.8)."""
    cases: List[Case] = []
    asked: Dict[str, Any] = {
        "begin": (BEGIN, {3: 10000}),
        "list": (ENUMERATE, None),
        "name": (RENAME, {1: TEMPLATE, 2: NAME}),
        "remove": (REMOVE, {1: TEMPLATE}),
    }
    wrong = bytes(16 if protocol == 1 else 32)
    for name, (command, parameters) in asked.items():
        case = EnrollCase(f"{name}_without_token", "Without a token the status is 36 (6.7).", protocol)
        cases.append(case.set_new_pin().enroll(command, parameters, None).expect("status 36").expect_alive())
        case = EnrollCase(f"{name}_not_authentic", "A wrong pinUvAuthParam is refused (6.7).", protocol)
        cases.append(case.prepare_enrolment().enroll(command, parameters, wrong).expect("status 33").expect_alive())
        case = EnrollCase(f"{name}_not_permitted", "A token without the permission be is refused (6.7).", protocol)
        case.set_new_pin().token(permissions=MAKE | GET).enroll(command, parameters)
        cases.append(case.expect("status 33").expect_alive())
    case = EnrollCase("modality", "The modality is 1, fingerprint (6.7.2).", protocol)
    cases.append(case.cbor(COMMAND + encode({6: True})).expect("modality"))
    case = EnrollCase("sensor", "The kind of sensor and the number of samples are returned (6.7.3).", protocol)
    cases.append(case.enroll(SENSOR, None, None).expect("sensor"))
    return cases


def cases() -> List[Case]:
    """Returns the cases of this file."""
    return [case for protocol in (1, 2) for case in template_cases(protocol) + refusal_cases(protocol)]
