"""Cases about authenticatorLargeBlobs and large blob keys."""

from __future__ import annotations

import hashlib
from typing import TYPE_CHECKING, Any, Dict, List, Optional, Tuple

from hidlog_conformance.cases.corpus import RESET, Case, descriptor, user
from hidlog_conformance.cases.manage import CREDENTIALS, ManageCase, rp_parameters
from hidlog_conformance.cases.pin import GET, MAKE, PinCase
from hidlog_conformance.ctap_cbor import encode

if TYPE_CHECKING:
    from typing_extensions import Self

COMMAND, WRITE = b"\x0c", 0x10
READ, SET, OFFSET, LENGTH = 1, 2, 3, 4


def append_hash(data: bytes) -> bytes:
    """Returns an array followed by its hash."""
    return data + hashlib.sha256(data).digest()[:16]


EMPTY_ARRAY = append_hash(b"\x80")
# An array of one entry: ciphertext, nonce, original size.
ARRAY_WITH_ENTRY = append_hash(encode([{1: b"\x5a" * 48, 2: b"\x01" * 12, 3: 32}]))
OTHER_ARRAY = append_hash(encode([{1: b"\xa5" * 40, 2: b"\x02" * 12, 3: 24}]))


class Blobs:
    """Methods of cases that read and write arrays."""

    def blobs(self: Any, asked: Dict[int, Any]) -> Any:
        """Sends authenticatorLargeBlobs."""
        self.cbor(COMMAND + encode(asked))
        return self

    def read(self: Any, count: int = 900, offset: int = 0) -> Any:
        """Reads a fragment."""
        return self.blobs({READ: count, OFFSET: offset})

    def expect_array(self: Any, array: bytes) -> Any:
        """Reads the array, and expects these bytes."""
        return self.read().expect(f"piece {array.hex()}")

    def write(self: Any, piece: bytes, offset: int = 0, length: Optional[int] = None, **more: Any) -> Any:
        """Writes a fragment; the first has the length of the array."""
        asked: Dict[int, Any] = {SET: piece, OFFSET: offset}
        if length is not None:
            asked[LENGTH] = length
        asked.update({int(name[1:]): value for name, value in more.items()})
        return self.blobs(asked)

    def write_whole(self: Any, array: bytes, **more: Any) -> Any:
        """Writes an array as one fragment."""
        return self.write(array, 0, len(array), **more)


class BlobCase(Blobs, Case):
    """A case without a token, for a device without user verification."""

    def __init__(self, name: str, requirement: str, section: str = "blobs", needs: Optional[List[str]] = None) -> None:
        uses = ["largeBlobs", "no protection"]
        super().__init__(f"blobs/{name}", section, requirement, needs=["reset", *(needs or [])], uses=uses)
        self.allocate()


class TokenCase(Blobs, PinCase):
    """A case with a token."""

    def __init__(self, name: str, requirement: str, protocol: int) -> None:
        super().__init__(f"blobs/{name}", "blobs", requirement, protocol)
        self.comment("uses: largeBlobs")

    def get_write_token(self, permissions: int = WRITE) -> Self:
        """Sets a PIN, and gets a token with the permission lbw."""
        return self.set_new_pin().token(permissions=permissions, rp="" if permissions == WRITE else "example.com")

    def write_with_token(self, **more: Any) -> Self:
        """Writes an array with the token."""
        self.write_whole(ARRAY_WITH_ENTRY, **{"p5": b"=blob", "p6": self.protocol, **more})
        return self


def read_cases() -> List[Case]:
    """Returns cases about reads."""
    cases: List[Case] = []
    cases.append(BlobCase("begins_empty", "The initial array is empty.").expect_array(EMPTY_ARRAY))
    case = BlobCase("read_in_pieces", "A read returns the requested number of bytes from the offset.")
    case.read(10).expect(f"piece {EMPTY_ARRAY[:10].hex()}")
    cases.append(
        case.read(5, 10)
        .expect(f"piece {EMPTY_ARRAY[10:15].hex()}")
        .read(9, 15)
        .expect(f"piece {EMPTY_ARRAY[15:].hex()}")
    )
    case = BlobCase("read_at_the_end", "A read at the end returns no bytes.")
    cases.append(case.read(10, 17).expect("piece "))
    case = BlobCase("read_behind_the_end", "An offset past the end is refused.")
    cases.append(case.read(10, 18).expect("status 02").expect_alive())
    case = BlobCase("read_behind_a_written_end", "An offset past the end of a written array is refused.")
    case.write_whole(ARRAY_WITH_ENTRY).expect("status 00").read(10, len(ARRAY_WITH_ENTRY) + 1).expect("status 02")
    cases.append(case.read(10, len(ARRAY_WITH_ENTRY)).expect("piece "))
    case = BlobCase("read_far_too_much", "A read of far more bytes than a fragment may have is refused.")
    cases.append(case.read(2**31 - 1).expect("status 03").expect_array(EMPTY_ARRAY))
    case = BlobCase("read_too_much", "A read of more bytes than a fragment may have is refused.")
    cases.append(case.read(7609).expect("status 03").expect_alive())
    wrong: Dict[str, Tuple[str, Dict[int, Any]]] = {
        "without_offset": ("A read without `offset`", {READ: 10}),
        "with_length": ("A read with `length`", {READ: 10, OFFSET: 0, LENGTH: 17}),
        "and_written": ("A request with `get` and `set`", {READ: 10, SET: EMPTY_ARRAY, OFFSET: 0, LENGTH: 17}),
    }
    for name, (request, asked) in wrong.items():
        case = BlobCase(f"read_{name}", f"{request} is refused.")
        cases.append(case.blobs(asked).expect("status 02").expect_alive())
    case = BlobCase("neither", "A request with neither `get` nor `set` is refused.")
    cases.append(case.blobs({OFFSET: 0}).expect("status 02").expect_alive())
    return cases


def write_cases() -> List[Case]:
    """Returns cases about successful writes."""
    cases: List[Case] = []
    case = BlobCase("written", "A written array can be read.")
    cases.append(case.write_whole(ARRAY_WITH_ENTRY).expect("status 00").expect_array(ARRAY_WITH_ENTRY))
    case = BlobCase("written_again", "A second write replaces the array.")
    cases.append(
        case.write_whole(ARRAY_WITH_ENTRY)
        .expect("status 00")
        .write_whole(OTHER_ARRAY)
        .expect("status 00")
        .expect_array(OTHER_ARRAY)
    )
    case = BlobCase("written_in_pieces", "An array written in fragments takes effect with the last one.")
    case.write(ARRAY_WITH_ENTRY[:30], 0, len(ARRAY_WITH_ENTRY)).expect("status 00").expect_array(EMPTY_ARRAY)
    case.write(ARRAY_WITH_ENTRY[30:50], 30).expect("status 00").expect_array(EMPTY_ARRAY)
    cases.append(case.write(ARRAY_WITH_ENTRY[50:], 50).expect("status 00").expect_array(ARRAY_WITH_ENTRY))
    long = append_hash(encode([{1: b"\x77" * 900, 2: b"\x03" * 12, 3: 884}]))
    case = BlobCase("written_of_a_thousand", "An array of a thousand bytes fits.")
    case.write(long[:500], 0, len(long)).expect("status 00").write(long[500:], 500).expect("status 00")
    cases.append(case.read(60, len(long) - 60).expect(f"piece {long[-60:].hex()}"))
    case = BlobCase("reset", "A reset empties the array.", "reset", ["touch"])
    case.write_whole(ARRAY_WITH_ENTRY).expect("status 00").cbor(RESET).presence().expect("status 00")
    cases.append(case.expect_array(EMPTY_ARRAY))
    case = BlobCase("reset_after_pieces", "A reset empties an array that was written in fragments.", "reset", ["touch"])
    case.write(OTHER_ARRAY[:30], 0, len(OTHER_ARRAY)).expect("status 00").write(OTHER_ARRAY[30:], 30).expect(
        "status 00"
    )
    case.cbor(RESET).presence().expect("status 00").expect_array(EMPTY_ARRAY)
    cases.append(case.write_whole(ARRAY_WITH_ENTRY).expect("status 00").expect_array(ARRAY_WITH_ENTRY))
    case = BlobCase("stays", "The array survives a power cycle.", "blobs", ["power cycle"])
    cases.append(
        case.write_whole(ARRAY_WITH_ENTRY).expect("status 00").power_cycle().allocate().expect_array(ARRAY_WITH_ENTRY)
    )
    case = BlobCase("half_is_gone", "An incomplete array is lost at a power cycle.", "blobs", ["power cycle"])
    case.write(ARRAY_WITH_ENTRY[:30], 0, len(ARRAY_WITH_ENTRY)).expect("status 00").power_cycle().allocate()
    cases.append(case.write(ARRAY_WITH_ENTRY[30:], 30).expect("status 04").expect_array(EMPTY_ARRAY))
    case = BlobCase(
        "half_is_gone_beside_a_whole",
        "An incomplete array is lost at a power cycle, and the complete one stays.",
        "blobs",
        ["power cycle"],
    )
    case.write_whole(OTHER_ARRAY).expect("status 00").write(ARRAY_WITH_ENTRY[:50], 0, len(ARRAY_WITH_ENTRY)).expect(
        "status 00"
    ).power_cycle().allocate()
    cases.append(case.write(ARRAY_WITH_ENTRY[50:60], 50).expect("status 04").expect_array(OTHER_ARRAY))
    return cases


def invalid_write_cases() -> List[Case]:
    """Returns cases about refused writes."""
    cases: List[Case] = []
    case = BlobCase("wrong_hash", "An array with a wrong hash is refused, and the old one stays.")
    case.write_whole(OTHER_ARRAY).expect("status 00").write_whole(ARRAY_WITH_ENTRY[:-1] + b"\0").expect("status 3d")
    cases.append(case.expect_array(OTHER_ARRAY))
    case = BlobCase("wrong_hash_in_pieces", "An array in fragments with a wrong hash is refused.")
    case.write(ARRAY_WITH_ENTRY[:30], 0, len(ARRAY_WITH_ENTRY)).expect("status 00")
    cases.append(case.write(ARRAY_WITH_ENTRY[30:-1] + b"\0", 30).expect("status 3d").expect_array(EMPTY_ARRAY))
    case = BlobCase("out_of_order", "A fragment out of order is refused.")
    case.write(ARRAY_WITH_ENTRY[:30], 0, len(ARRAY_WITH_ENTRY)).expect("status 00")
    cases.append(case.write(ARRAY_WITH_ENTRY[40:], 40).expect("status 04").expect_array(EMPTY_ARRAY))
    case = BlobCase("later_piece_alone", "A later fragment without a first one is refused.")
    cases.append(case.write(ARRAY_WITH_ENTRY[30:], 30).expect("status 04").expect_array(EMPTY_ARRAY))
    case = BlobCase("too_many_bytes", "More bytes than `length` are refused.")
    cases.append(
        case.write(ARRAY_WITH_ENTRY, 0, len(ARRAY_WITH_ENTRY) - 1).expect("status 02").expect_array(EMPTY_ARRAY)
    )
    case = BlobCase("too_many_in_pieces", "More bytes than `length` are refused, in fragments too.")
    case.write(ARRAY_WITH_ENTRY[:30], 0, len(ARRAY_WITH_ENTRY) - 1).expect("status 00")
    cases.append(case.write(ARRAY_WITH_ENTRY[30:], 30).expect("status 02").expect_array(EMPTY_ARRAY))
    for length in (0, 16):
        case = BlobCase(f"length_{length}", "A length below 17 is refused.")
        cases.append(case.write(EMPTY_ARRAY[:length], 0, length).expect("status 02").expect_array(EMPTY_ARRAY))
    case = BlobCase("without_length", "A first fragment without `length` is refused.")
    cases.append(case.write(ARRAY_WITH_ENTRY).expect("status 02").expect_array(EMPTY_ARRAY))
    case = BlobCase("later_length", "A later fragment with `length` is refused.")
    case.write(ARRAY_WITH_ENTRY[:30], 0, len(ARRAY_WITH_ENTRY)).expect("status 00")
    cases.append(
        case.write(ARRAY_WITH_ENTRY[30:], 30, len(ARRAY_WITH_ENTRY)).expect("status 02").expect_array(EMPTY_ARRAY)
    )
    case = BlobCase("too_long", "An array that is too long is refused.")
    cases.append(case.write(ARRAY_WITH_ENTRY, 0, 2**31 - 1).expect("status 42").expect_array(EMPTY_ARRAY))
    return cases


def token_cases(protocol: int) -> List[Case]:
    """Returns cases about writes with a PIN set."""
    cases: List[Case] = []
    case = TokenCase("by_token", "With a PIN set, a token can write.", protocol)
    cases.append(case.get_write_token().write_with_token().expect("status 00").expect_array(ARRAY_WITH_ENTRY))
    case = TokenCase("pieces_by_token", "One token can write all fragments.", protocol)
    case.get_write_token().write(ARRAY_WITH_ENTRY[:30], 0, len(ARRAY_WITH_ENTRY), p5=b"=blob", p6=protocol).expect(
        "status 00"
    )
    cases.append(
        case.write(ARRAY_WITH_ENTRY[30:], 30, None, p5=b"=blob", p6=protocol)
        .expect("status 00")
        .expect_array(ARRAY_WITH_ENTRY)
    )
    case = TokenCase("read_without_token", "Reading needs no token.", protocol)
    cases.append(case.set_new_pin().expect_array(EMPTY_ARRAY))
    case = TokenCase("without_token", "With a PIN set, a write without a token is refused.", protocol)
    cases.append(case.set_new_pin().write_whole(ARRAY_WITH_ENTRY).expect("status 36").expect_array(EMPTY_ARRAY))
    case = TokenCase("without_protocol", "A token without pinUvAuthProtocol is refused.", protocol)
    cases.append(
        case.get_write_token().write_whole(ARRAY_WITH_ENTRY, p5=b"=blob").expect("status 14").expect_array(EMPTY_ARRAY)
    )
    wrong = bytes(16 if protocol == 1 else 32)
    case = TokenCase("not_authentic", "A write with a wrong pinUvAuthParam is refused.", protocol)
    cases.append(case.get_write_token().write_with_token(p5=wrong).expect("status 33").expect_array(EMPTY_ARRAY))
    case = TokenCase("not_permitted", "A write with a token without the permission lbw is refused.", protocol)
    cases.append(case.get_write_token(MAKE | GET).write_with_token().expect("status 33").expect_array(EMPTY_ARRAY))
    return cases


def blob_key_cases() -> List[Case]:
    """Returns cases about the extension largeBlobKey."""
    cases: List[Case] = []
    found: Dict[str, Any] = {"needs": ["touch", "reset"], "uses": ["rk", "extension largeBlobKey"]}
    asked = {"largeBlobKey": True}
    case = Case(
        "blobkey/same", "blob key", "A credential's large blob key never changes, and differs from others.", **found
    )
    case.allocate()
    for number in (1, 2):
        case.make(p3=user(number), p6=asked, p7={"rk": True}).expect_credential(number, f"up blob-key of-{number}")
    for number in (2, 1):
        case.get(p3=[descriptor(number)], p4=asked).expect_assertion(f"up counter-rises blob-key of-{number}")
    cases.append(case)
    case = Case(
        "blobkey/without_list",
        "blob key",
        "Large blob keys are returned without an allow list, and by authenticatorGetNextAssertion.",
        **found,
    )
    case.allocate()
    for number in (1, 2):
        case.make(p3=user(number), p6=asked, p7={"rk": True}).expect_credential(number, f"up blob-key of-{number}")
    case.get(p4=asked).expect_assertion("up user 02 number 2 blob-key of-2")
    cases.append(case.cbor(b"\x08").expect_assertion("up user 01 blob-key of-1", presence=False))
    case = Case("blobkey/not_asked", "blob key", "A registration without the extension returns no key.", **found)
    case.allocate().make(p7={"rk": True}).expect_credential(1, "up no-blob-key")
    cases.append(case.get(p3=[descriptor(1)]).expect_assertion("up counter-rises no-blob-key"))
    case = Case("blobkey/not_asked_at_sign_in", "blob key", "A sign-in without the extension returns no key.", **found)
    case.allocate().make(p6=asked, p7={"rk": True}).expect_credential(1, "up blob-key one")
    cases.append(case.get(p3=[descriptor(1)]).expect_assertion("up counter-rises no-blob-key"))
    case = Case("blobkey/of_none", "blob key", "A credential registered without the extension has no key.", **found)
    case.allocate().make(p7={"rk": True}).expect_credential(1, "up no-blob-key")
    cases.append(case.get(p3=[descriptor(1)], p4=asked).expect_assertion("up counter-rises no-blob-key"))
    wrong: List[Tuple[str, bool, Dict[str, bool]]] = [("not_discoverable", True, {}), ("false", False, {"rk": True})]
    for name, value, options in wrong:
        case = Case(
            f"blobkey/{name}", "blob key", "largeBlobKey must be true, and needs a discoverable credential.", **found
        )
        cases.append(
            case.allocate()
            .make(p6={"largeBlobKey": value}, p7=options or None)
            .expect("status 2c or touch")
            .expect_alive()
        )
    return cases


def credential_management_cases(protocol: int) -> List[Case]:
    """Returns cases about large blob keys in credential management."""
    case = ManageCase("blob_key", "Credential management returns the large blob key.", protocol)
    case.comment("uses: extension largeBlobKey")
    case.make(p6={"largeBlobKey": True}, p7={"rk": True}).expect_credential(1, "up blob-key one").set_new_pin()
    return [
        case.get_management_token().manage(CREDENTIALS, rp_parameters()).expect("managed credentials 1 blob-key one")
    ]


def cases() -> List[Case]:
    """Returns the cases of this file."""
    found = read_cases() + write_cases() + invalid_write_cases() + blob_key_cases()
    for protocol in (1, 2):
        found += token_cases(protocol) + credential_management_cases(protocol)
    return found
