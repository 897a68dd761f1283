"""Combined sessions (tours.py) for the cases that reset a device, or need a device without other credentials."""

from __future__ import annotations

import functools
import itertools
from typing import Any, Dict, Iterator, List, Tuple

from hidlog_conformance import hid_packets as hid
from hidlog_conformance.cases.blobs import ARRAY_WITH_ENTRY, EMPTY_ARRAY, OTHER_ARRAY, Blobs
from hidlog_conformance.cases.corpus import INFO, KIND, MAKE, NEXT, RESET, Case, descriptor, user
from hidlog_conformance.cases.manage import COUNT, CREDENTIALS, DELETE, MANAGE, RPS, ManageCase, rp_parameters
from hidlog_conformance.cases.pin import OTHER, RIGHT
from hidlog_conformance.cases.settings import block_pin
from hidlog_conformance.ctap_cbor import encode
from hidlog_conformance.merged_requests import list_ignored, merge_ignored
from hidlog_conformance.tours import (
    EDDSA,
    ES256,
    LONG_NAMES,
    SILENT,
    UNKNOWN,
    es256_registration,
    Tour,
    make_tour,
    refuse_earlier_touch,
    sign_in_silently,
)


LONGEST_PIN = b"x" * 63
BLOBS_OF = (b"a blob", bytes(range(32)))
RK, BOTH_KEYS = {"rk": True}, {"hmac-secret": True, "largeBlobKey": True}


def user_of(length: int) -> Dict[str, Any]:
    """Returns a user with an ID of this length."""
    return {"id": bytes((7 * number + 3) % 256 for number in range(length)), "name": "x", "displayName": "x"}


class TourCase(Blobs, ManageCase):
    """A session with all commands, by either PIN protocol."""

    def __init__(self, is_first: bool = True) -> None:
        super().__init__("tour", "", 1)
        if not is_first:
            # The part continues on the channel of the part before it.
            self.lines = self.lines[:1]

    def use_protocol(self, protocol: int) -> "TourCase":
        """Sets the PIN protocol of the following requests."""
        self.protocol = protocol
        return self

    def power_cycle_device(self) -> "TourCase":
        """Power cycles the device, and allocates a channel."""
        self.power_cycle().allocate()
        return self

    def reset_device(self) -> "TourCase":
        """Resets the device, with a touch."""
        self.cbor(RESET).presence().expect("status 00")
        return self

    def expect_no_pin(self) -> "TourCase":
        """Expects that no PIN is set."""
        self.cbor(INFO).expect("option clientPin false")
        return self


def reset_in_time(tour: TourCase, rp: str = "example.com", hidden: bytes = descriptor(5)["id"]) -> TourCase:
    """Resets a device that has credentials, pending assertions and large blobs: first too late, then in time."""
    tour.wait(10500).cbor(RESET).expect("status 30")
    tour.power_cycle_device().get(p5=SILENT).expect_assertion("no-up user 04 number 4", presence=False)
    tour.cbor(NEXT).expect_assertion("no-up user 03", presence=False)
    tour.cbor(RESET).expect("keepalive 02").tick(100).expect("nothing").presence().expect("status 00").expect_alive()
    tour.cbor(NEXT).expect("status 30").expect_array(EMPTY_ARRAY)
    for _ in range(2):
        tour.get().expect("status 2e").get(p3=[descriptor(1)]).expect("status 2e")
        tour.get(p1=rp, p3=[{"id": hidden, "type": KIND}]).expect("status 2e").power_cycle_device()
    return tour


def store_everything(tour: TourCase, has_hidden: bool = True) -> TourCase:
    """Registers credentials, and writes a large-blob array in pieces."""
    tour.register_discoverable(1, 2, 3, 4)
    if has_hidden:
        tour.register(5)
    tour.write(OTHER_ARRAY[:30], 0, len(OTHER_ARRAY)).expect("status 00").write(OTHER_ARRAY[30:], 30)
    tour.expect("status 00")
    return tour


def serve_again(tour: TourCase, rp: str, hidden: bytes) -> TourCase:
    """Signs in with a credential that is not discoverable, cancels a reset, and writes a large-blob array."""
    allow = [{"id": hidden, "type": KIND}]
    tour.get(p1=rp, p3=allow, p5=SILENT).expect_assertion("no-up counter-rises no-name", presence=False)
    for _ in range(2):
        tour.get(p1=rp).expect("status 2e").power_cycle_device()
    tour.cbor(RESET).expect("keepalive 02").send(1, hid.CANCEL).expect("status 2d")
    tour.get(p1=rp, p3=allow, p5=SILENT).expect_assertion("no-up counter-rises", presence=False)
    tour.write_whole(ARRAY_WITH_ENTRY).expect("status 00").expect_array(ARRAY_WITH_ENTRY)
    return tour


def set_and_block(tour: TourCase, pin: bytes) -> TourCase:
    """Sets a PIN, and sends wrong ones until it is blocked."""
    tour.set_new_pin(pin).cbor(INFO).expect("option clientPin true").token(pin=pin).pin(1).expect("retries 8")
    block_pin(tour).pin(1).expect("retries 0").ask_token(pin=pin).expect("status 32").change(pin, OTHER)
    tour.expect("status 32")
    return tour.power_cycle_device()


def forgetful_reset(case: Case, made: List[bytes]) -> Case:
    """Adds a reset of a device without a PIN."""
    tour = reset_in_time(store_everything(TourCase()))
    return serve_again(tour.register(6), "example.com", descriptor(6)["id"])


def resets_with_pin(case: Case, made: List[bytes]) -> Case:
    """Resets that remove a PIN, blocked and not, for each protocol."""
    tour = TourCase()
    tour.register_discoverable(1).write_whole(ARRAY_WITH_ENTRY).expect("status 00")
    for protocol in (1, 2):
        set_and_block(tour.use_protocol(protocol), RIGHT).reset_device().expect_no_pin().set_new_pin(LONGEST_PIN).token(
            pin=LONGEST_PIN
        )
        for other in (1, 2):
            tour.use_protocol(other).token(pin=LONGEST_PIN, permissions=MANAGE, rp="").manage(COUNT).expect(
                "managed count 0"
            )
        tour.expect_array(EMPTY_ARRAY).power_cycle_device().reset_device().expect_no_pin()
    return tour.set_new_pin().token()


def all_stored(case: Case, made: List[bytes]) -> Case:
    """Stores credentials, fingerprints and large blobs before the resets. Firefox's credential and the PIN already
    exist."""
    return store_everything(TourCase(), False)


def all_resets(case: Case, made: List[bytes]) -> Case:
    """Adds a reset of everything that is stored, and of a PIN."""
    tour = TourCase(False)
    tour.set_new_pin().cbor(INFO).expect("option clientPin true")
    return reset_in_time(tour, "localhost", made[-1]).expect_no_pin()


def all_pins(case: Case, made: List[bytes]) -> Case:
    """Adds sign-ins with the credential of python-fido2; then PINs of both protocols are reset, set and blocked."""
    tour = TourCase(False)
    serve_again(tour, "relying.example", made[-1]).use_protocol(2).set_new_pin().cbor(INFO).expect(
        "option clientPin true"
    )
    for protocol in (1, 2):
        tour.use_protocol(protocol).token(permissions=MANAGE, rp="").manage(COUNT).expect("managed count 0")
    tour.power_cycle_device().reset_device().expect_no_pin().expect_array(EMPTY_ARRAY)
    for protocol in (1, 2):
        set_and_block(tour.use_protocol(protocol), LONGEST_PIN).reset_device().expect_no_pin()
    return tour.set_new_pin().token()


def touches_of_libfido2(case: Case, made: List[bytes]) -> Case:
    """Adds sign-ins with and without touches, after a sign-in of libfido2."""
    rp, allow = "relying.example", [{"id": made[-1], "type": KIND}]
    for options, words in ((SILENT, "no-up"), ({"up": True, "uv": False}, "up no-uv"), (SILENT, "no-up")):
        case.get(p1=rp, p3=allow, p5=options)
        if words != "no-up":
            case.expect("keepalive 02")
        case.expect_assertion(f"{words} counter-rises", presence=words != "no-up")
    refuse_earlier_touch(case.get(p1=rp, p3=allow)).get(p1=rp, p3=allow, p5=SILENT)
    return case.expect_assertion("no-up counter-rises", presence=False)


def registered_between(case: Case, made: List[bytes]) -> Case:
    """Adds a registration while assertions are pending, with the counter 0."""
    case.allocate()
    for number in (1, 2, 3):
        case.register(number, rk=True, p3=user(number))
    case.get(p5=SILENT).expect_assertion("no-up user 03 number 3", presence=False)
    return (
        case.make(p2={"id": "nobody.example", "name": "x"})
        .expect_credential(4, "up counter 0")
        .cbor(NEXT)
        .expect("status 30")
    )


def find_credentials(case: Case, rp: str, words: str) -> Case:
    """Signs in without an allow list and a touch."""
    return case.get(p1=rp, p5=SILENT).expect_assertion(f"no-up counter-rises {words}", presence=False)


def same_users(
    case: Case, made: List[bytes], is_long: bool = True, has_eddsa: bool = True, has_protection: bool = True
) -> Case:
    """Adds discoverable and other credentials of two RPs, for Firefox's user and for others. Some are replaced or
    excluded, and each registration has different unusual members."""
    first, com, org = (
        {"id": made[0], "type": KIND},
        {"id": "localhost", "name": "x"},
        {"id": "ü.example:443", "name": "x"},
    )
    bob, eddsa = {"id": b"bob", "name": "bob"}, EDDSA if has_eddsa else ES256
    case.register(2, rk=True, p2=org, p3=bob, p5=[first])
    for rp, identity in (("localhost", made[0]), (org["id"], descriptor(2)["id"])):
        find_credentials(case, rp, f"no-number id {identity.hex()}").cbor(NEXT).expect("status 30")
    is_first = f"no-number id {made[0].hex()}"
    es256_registration(case, 3, {**com, "name": "x" * (1800 if is_long else 1)}, bob)
    find_credentials(case, "localhost", is_first)
    asked = merge_ignored()
    asked.update({2: {**asked[2], **com}, 3: {**asked[3], **bob}, 4: [eddsa]})
    find_credentials(case.cbor(MAKE + encode(asked)).expect_credential(4), "localhost", is_first)
    find_credentials(
        case.make(p2=com, p3=bob, p7=RK).expect_credential(5, "up no-uv no-blob-key"), "localhost", is_only(5)
    )
    case.get(p1="localhost", p3=[first]).expect("status 2e")
    for number in (3, 4):
        sign_in_silently(case, number, "localhost")
    find_credentials(case.power_cycle().allocate(), "localhost", is_only(5))
    case.get(p1="localhost", p3=[descriptor(5)], p4={"largeBlobKey": True}, p5=SILENT)
    case.expect_assertion("no-up counter-rises no-blob-key", presence=False)
    newer: Dict[str, Any] = {"p3": {**user_of(33), "displayName": "x" * (1700 if is_long else 1)}}
    newer.update(p2=org, p4=[UNKNOWN, eddsa, ES256], p5=[descriptor(3)], p6={"credProtect": 1}, p7=RK)
    words = "up extension credProtect 01" if has_protection else "up"
    find_two(case_of_two(case, first, com).make(**newer).expect_credential(7, words), "localhost", user_of(64)["id"])
    sign_in_silently(find_two(case, org["id"], user_of(33)["id"]), 7, org["id"])
    return exclude_similar(case, com)


def case_of_two(case: Case, first: Dict[str, Any], com: Dict[str, str]) -> Case:
    """Registers a second user, with an exclude list without a credential of this RP."""
    similar = [case.similar_descriptor(5, kind) for kind in ("changed", "longer", "shorter")]
    others = [descriptor(9), descriptor(5, "other"), descriptor(5, "")]
    user_id: bytes = user_of(64)["id"]
    case.register(6, rk=True, p2=com, p3={"id": user_id, **LONG_NAMES}, p5=[first, *similar, *others])
    find_two(case, "localhost", user_id)
    for number in (5, 6):
        sign_in_silently(case, number, "localhost")
    case.get(p1="localhost", p3=[descriptor(number) for number in (3, 4, 6)], p5=SILENT)
    case.expect_assertion("no-up counter-rises no-number", presence=False)
    return case


def exclude_similar(case: Case, com: Dict[str, str]) -> Case:
    """Excludes a discoverable credential twice, before eight unknown ones."""
    excluded = [descriptor(6), descriptor(6), *(descriptor(number) for number in range(20, 28))]
    return case.make(p2=com, p5=excluded, p7=RK).presence().expect("status 19").expect_alive()


def is_only(number: int) -> str:
    """Returns the expectation that this credential is the only one."""
    return f"no-number id {descriptor(number)['id'].hex()}"


def find_two(case: Case, rp: str, newest: bytes) -> Case:
    """Signs in without an allow list, and expects two accounts: the newest, with this user ID, and Firefox's."""
    find_credentials(case, rp, f"number 2 user {newest.hex()}").cbor(NEXT)
    return case.expect_assertion("no-up user 626f62", presence=False).cbor(NEXT).expect("status 30")


def protected(case: Case, made: List[bytes]) -> Case:
    """Adds credentials that are hidden without user verification, for RP IDs of one character and of 253 characters."""
    case.allocate().make(p2={"id": "a", "name": "x"}, p6={"credProtect": 3}, p7=RK)
    case.expect_credential(1, "up extension credProtect 03").get(p1="a", p3=[descriptor(1)]).expect("status 2e")
    case.get(p1="a").expect("status 2e")
    for _ in range(2):
        case.get(p1="a", p3=[descriptor(number) for number in (8, 1, 9)]).expect("status 2e")
    rp = "x" * 253
    case.make(p2={"id": rp, "name": "x"}, p3=user_of(16), p6={"credProtect": 2}, p7=RK)
    case.expect_credential(2, "up extension credProtect 02").get(p1=rp, p3=[descriptor(2)], p5=SILENT)
    case.expect_assertion(f"no-up counter-rises user {user_of(16)['id'].hex()}", presence=False)
    return case.get(p1=rp).expect("status 2e")


def register_with_extensions(case: Case, count: int = 2) -> Case:
    """Registers two credentials with all extensions."""
    words = "up extension credBlob f5 extension hmac-secret f5"
    case.make(p6={"credBlob": BLOBS_OF[0], **BOTH_KEYS}, p7=RK).expect_credential(1, f"{words} blob-key of-1")
    if count > 1:
        case.make(p3=user(2), p6={"credBlob": BLOBS_OF[1], **BOTH_KEYS}, p7=RK).expect_credential(
            2, f"{words} blob-key of-2"
        )
    return case


def extensions_of_one(case: Case, made: List[bytes]) -> Case:
    """Adds a credential with all extensions."""
    sign_in_with_extensions(register_with_extensions(case.allocate(), 1), 1)
    case.get(p4={"credBlob": True}, p5=SILENT)
    return case.expect_assertion(f"no-up no-number extension credBlob {encode(BLOBS_OF[0]).hex()}", presence=False)


def sign_in_with_extensions(case: Case, number: int) -> Case:
    """Signs in with and without extensions; then no assertion is pending."""
    case.get(p3=[descriptor(number)], p4={"credBlob": True, "largeBlobKey": True}, p5=SILENT)
    words = f"no-up counter-rises extension credBlob {encode(BLOBS_OF[number - 1]).hex()} blob-key of-{number}"
    case.expect_assertion(words, presence=False).get(p3=[descriptor(number)], p5=SILENT)
    return case.expect_assertion("no-up counter-rises no-blob-key", presence=False).cbor(NEXT).expect("status 30")


def extensions_of_two(case: Case, made: List[bytes]) -> Case:
    """Adds two credentials with all extensions."""
    register_with_extensions(case.allocate())
    for number in (2, 1):
        sign_in_with_extensions(case, number)
    case.get(p4={"credBlob": True}, p5=SILENT)
    words = f"no-up user 02 number 2 extension credBlob {encode(BLOBS_OF[1]).hex()}"
    return case.expect_assertion(words, presence=False).cbor(NEXT).expect_assertion("no-up user 01", presence=False)


def secrets(case: Case, made: List[bytes], has_all: bool = True) -> Case:
    """Adds sign-ins with hmac-secret for two credentials, by both PIN protocols."""
    tour = TourCase()
    if has_all:
        register_with_extensions(tour)
    else:
        tour.register(1, p6={"hmac-secret": True}).register(2, p6={"hmac-secret": True})
    for protocol in (1, 2):
        asked: Dict[int, Any] = {1: b"=agreement", 2: b"=encrypt:" + b"1" * 32, 3: b"=auth:2", 4: protocol}
        two, wrong = {**asked, 2: asked[2] + b"2" * 32}, {**asked, 3: bytes(16 * protocol)}
        tour.use_protocol(protocol)
        for number, salts, name in ((1, two, "one+two"), (2, asked, "of-2")):
            tour.agree().get(p3=[descriptor(number)], p4={"hmac-secret": salts}).expect_assertion(f"up secret {name}")
        tour.agree().get(p3=[descriptor(1)], p4={"hmac-secret": wrong}).presence().expect("status 33")
    return tour


def lost_touch(case: Case, made: List[bytes]) -> Case:
    """Adds a touch after a power cycle, and before registrations."""
    case.allocate().make().expect("keepalive 02").power_cycle().allocate().tick(250).expect("silence")
    case.presence().expect("silence").expect_alive().tick(100)
    return refuse_earlier_touch(refuse_earlier_touch(case.make(p7=RK)).make())


def changed_pin(case: Case, made: List[bytes]) -> Case:
    """Adds a change of the PIN by one PIN protocol, and the change back by the other."""
    tour = TourCase().set_new_pin()
    for protocol, old, new in ((1, RIGHT, OTHER), (2, OTHER, RIGHT)):
        tour.use_protocol(protocol).change(old, new).expect("status 00").ask_token(old).expect("status 31").token(
            pin=new
        )
    return tour


def managed(case: Case, made: List[bytes]) -> Case:
    """Adds deletions and replacements of credentials until none is left, twice."""
    tour = TourCase().register_at_several().set_new_pin()
    for protocol in (1, 2):
        tour.use_protocol(protocol).get_management_token().manage(DELETE, {2: descriptor(protocol)}).expect(
            "status 00"
        ).get_management_token()
        tour.manage(CREDENTIALS, rp_parameters()).expect(f"managed credentials {3 - protocol}")
        tour.get(p3=[descriptor(protocol)]).expect("status 2e")
        sign_in_silently(tour, protocol + 1)
    tour.use_protocol(1)
    more = {"p3": user(3), "p6": {"credProtect": 2, "largeBlobKey": True}, "p7": RK}
    tour.token().register_with_token(**more).expect_credential(7, "up uv extension credProtect 02 blob-key one")
    for protocol in (1, 2):
        tour.use_protocol(protocol).get_management_token().manage(COUNT).expect(
            "managed count 2"
        ).get_management_token()
        tour.manage(CREDENTIALS, rp_parameters()).expect("managed credentials 1 protect 2 blob-key one")
    for number in (4, 7):
        tour.use_protocol(1).get_management_token().manage(DELETE, {2: descriptor(number)}).expect("status 00")
    tour.get_management_token().manage(COUNT).expect("managed count 0").get().expect("status 2e")
    for protocol in (1, 2):
        tour.use_protocol(protocol).get_management_token().manage(RPS).expect("status 2e")
    tour.token().register_with_token(p7=RK).expect_credential(8, "up uv").get_management_token().manage(
        DELETE, {2: descriptor(8)}
    )
    return (
        tour.expect("status 00")
        .get_management_token()
        .manage(COUNT)
        .expect("managed count 0")
        .get()
        .expect("status 2e")
    )


def by_each_protocol(names: str) -> str:
    """Returns the names of cases that exist for each PIN protocol."""
    return " ".join(f"{name}_{protocol}" for name in names.split() for protocol in (1, 2))


OF_RESETS = (
    "reset/forgets reset/forgets_hidden reset/asks_for_the_user reset/granted reset/serves_again reset/cancelled"
    " next/after_reset next/after_reset_in_between power/reset_in_time_again power/reset_stays"
    " power/other_credentials_stay_hidden get/other_credentials_stay_hidden get/names_by_list blobs/reset_after_pieces"
)
OF_PINS = "blobs/reset " + by_each_protocol(
    "pin/set pin/of_63 pin/reset blocked/token blocked/change blocked/reset manage/count_after_reset"
)
OF_USERS = (
    "get/same_user_again get/same_user_of_another_rp get/same_user_of_another_rp_first get/two_hidden_stay"
    " get/hidden_replaces_nothing get/two_hidden_replace_nothing get/discoverable_replaces_no_hidden"
    " get/other_user_replaces_nothing get/one_among_other_rps get/user_id_of_33 get/user_id_of_64 get/rp_2 get/rp_4"
    " lists/exclude_discoverable lists/exclude_discoverable_of_another_rp lists/exclude_replaced lists/exclude_empty"
    " lists/exclude_changed lists/exclude_longer lists/exclude_shorter lists/exclude_other_type lists/exclude_unknown"
    " lists/exclude_other_types lists/exclude_of_another_rp lists/exclude_first_of_ten lists/exclude_twice"
    " lists/allow_three make/three_ids make/answer make/options_as_they_are make/other_type_first make/es256_twice_listed"
    " make/algorithms_last make/user_id_of_64 make/user_id_in_no_id make/discoverable_without_uv secret/not_asked"
    " next/one_of_another_rp next/two_rps next/two_rps_newer power/replaced_stays_replaced blobkey/not_asked"
    " blobkey/of_none fuzzed/excluded_after_long_names fuzzed/registration_of_four_packets"
    " recorded/firefox_discoverable "
) + " ".join(session.name for session in list_ignored())
OF_EDDSA = " make/eddsa make/eddsa_twice make/first_is_es256 make/first_known_is_es256 make/first_is_eddsa"
OF_EDDSA += " make/first_known_is_eddsa"
LONG, OF_PROTECTION = " make/long_request make/long_user", " protect/level_1"

OF_SECRETS = by_each_protocol("secret/same secret/of_two_salts secret/of_each_credential secret/not_authentic")


def make_user_tours() -> Iterator[Tour]:
    """Yields the tours of users, first for a device with long messages, EdDSA and credProtect."""
    for is_long, has_eddsa, has_protection in itertools.product((True, False), repeat=3):
        covers = OF_USERS + LONG * is_long + OF_EDDSA * has_eddsa + OF_PROTECTION * has_protection
        part = functools.partial(same_users, is_long=is_long, has_eddsa=has_eddsa, has_protection=has_protection)
        needed = "recorded/firefox_discoverable" + " make/long_request" * is_long + " make/eddsa" * has_eddsa
        needed += OF_PROTECTION * has_protection
        yield make_tour(("recorded/firefox_discoverable", part), covers, needed, True)


RESET_TOURS: Tuple[Tour, ...] = (
    make_tour(
        (all_stored, "recorded/firefox_excluded", all_resets, "recorded/python_fido2", all_pins),
        f"{OF_RESETS} {OF_PINS} recorded/firefox_excluded recorded/python_fido2",
    ),
    make_tour(forgetful_reset, OF_RESETS),
    make_tour(resets_with_pin, OF_PINS),
    *make_user_tours(),
    make_tour(
        protected,
        "protect/level_2 protect/level_3 protect/level_3_hides_from_a_long_list get/user_id_of_16 get/rp_1 get/rp_3",
        "protect/level_2 protect/level_3",
        True,
    ),
    make_tour(
        extensions_of_one,
        "blob/kept blobkey/not_asked_at_sign_in secret/made secret/made_discoverable"
        " fuzzed/nothing_pending_after_a_list",
    ),
    make_tour(extensions_of_two, "blob/of_32 blobkey/same"),
    make_tour(secrets, OF_SECRETS, "blob/kept blob/of_32 blobkey/same"),
    make_tour(functools.partial(secrets, has_all=False), OF_SECRETS),
    make_tour(
        ("recorded/libfido2_discoverable", touches_of_libfido2),
        "recorded/libfido2_discoverable get/up_true get/up_true_uv_false get/touch_counts_once"
        " get/counter_rises_with_and_without_touch",
    ),
    make_tour(registered_between, "next/after_registration make/counter_of_a_new_one"),
    make_tour(lost_touch, "power/request_is_gone make/touch_before_make make/touch_before_make_discoverable"),
    make_tour(changed_pin, by_each_protocol("pin/change")),
    make_tour(
        managed,
        by_each_protocol(
            "manage/delete manage/delete_the_last manage/count_after_replacing manage/protection manage/blob_key"
            " manage/rps_of_none pin/registers"
        ),
    ),
)
