#!/usr/bin/env python3
"""Compares the tables in standard/ with independent sources: the definitions in crates/*/specs, the lists in
tests/program/tables.py, and python-fido2's enumerations. Run by tests/with_fido2.sh.

KNOWN_DIFFERENCES lists where python-fido2 0.9.1 differs from CTAP 2.1, and why.
"""

from __future__ import annotations

import csv
import re
import sys
from enum import IntEnum
from pathlib import Path

import fido2
from fido2 import cose
from fido2.ctap import CtapError
from fido2.ctap2 import base, bio, config, credman, pin
from fido2.hid import CAPABILITY, CTAPHID

TOP = Path(__file__).resolve().parent.parent
sys.path.insert(0, str(TOP / "tests" / "program"))
import tables  # noqa: E402

Names = dict[int, str]
# For each list and number: the name in python-fido2, and the reason for the difference.
KNOWN_DIFFERENCES: dict[tuple[str, int], tuple[str, str]] = {
    ("status", 0x00): ("SUCCESS", "section 8.2 has CTAP1_ERR_SUCCESS and CTAP2_OK"),
    ("status", 0x36): ("PIN_REQUIRED", "the name of CTAP 2.0"),
    ("status", 0x3C): ("UV_BLOCKD", "misspelt"),
    ("status", 0x16): ("UNSUPPORTED_EXTENSION", "only in CTAP 2.0"),
    ("status", 0x29): ("NOT_BUSY", "only in CTAP 2.0"),
    ("status", 0x2A): ("NO_OPERATION_PENDING", "only in CTAP 2.0"),
    ("status", 0x38): ("PIN_TOKEN_EXPIRED", "only in CTAP 2.0"),
    ("command", 0x40): ("BIO_ENROLLMENT_PRE", "a preview from before CTAP 2.1"),
    ("command", 0x41): ("CREDENTIAL_MGMT_PRE", "a preview from before CTAP 2.1"),
    ("command", 0x0A): ("CREDENTIAL_MGMT", "shortened"),
    ("ctaphid", 0x40): ("VENDOR_FIRST", "the first of a range"),
    ("capability", 0x02): ("LOCK", "not in CTAP 2.1"),
}
if not getattr(fido2, "__version__", "").startswith("0.9"):  # newer versions have the names of CTAP 2.1
    del KNOWN_DIFFERENCES["status", 0x36], KNOWN_DIFFERENCES["status", 0x3C]


def read_rows(name: str) -> list[dict[str, str]]:
    """Returns the rows of a table."""
    with (TOP / "standard" / f"{name}.tsv").open(encoding="utf-8", newline="") as file:
        return list(csv.DictReader(file, delimiter="\t"))


def read_numbers(name: str, column: str = "number", **values: str) -> Names:
    """Returns the names in the rows of a table with these values, by number."""
    kept = (row for row in read_rows(name) if all(row[key] == value for key, value in values.items()))
    return {int(row[column], 0): row["name"] for row in kept}


def normalize_name(name: str) -> str:
    """Returns a name without prefix and underscores, in one case, for comparison."""
    for prefix in ("CTAP1_", "CTAP2_", "ERR_", "authenticator"):
        name = name.removeprefix(prefix)
    return name.replace("_", "").replace(" ", "").lower()


def find_differences(title: str, ours: Names, theirs: Names) -> list[str]:
    """Returns the differences between two lists, except those in KNOWN_DIFFERENCES."""
    found = []
    for number in sorted({*ours, *theirs}):
        expected = KNOWN_DIFFERENCES.get((title, number))
        if expected is not None:
            if theirs.get(number) != expected[0]:
                found.append(f"{title} {number:#x}: python-fido2 has {theirs.get(number)}, expected {expected[0]}")
        elif normalize_name(ours.get(number, "")) != normalize_name(theirs.get(number, "")):
            found.append(f"{title} {number:#x}: expected {ours.get(number)}, the other source has {theirs.get(number)}")
    return found


def read_enum(kind: type[IntEnum]) -> Names:
    """Returns the names of an enumeration."""
    return {int(value): name for name, value in kind.__members__.items()}


def parse_list(text: str) -> Names:
    """Parses a list in tests/program/tables.py."""
    pairs = (line.split() for line in text.splitlines())
    return {int(pair[0], 16): pair[1] for pair in pairs if len(pair) == 2}


def read_definitions(path: str) -> Names:
    """Returns the constants with hexadecimal values in a file of definitions, by number: those of CTAPHID's commands."""
    text = (TOP / "crates" / path).read_text(encoding="utf-8")
    return {
        int(number.replace("_", ""), 0): name for name, number in re.findall(r"^([A-Z_]+) = (0x[\da-f_]+)$", text, re.M)
    }


def compare_limits() -> list[str]:
    """Returns the limits that differ between the definitions and the table."""
    table = {row["name"]: int(row["value"], 0) for row in read_rows("limits")}
    text = (TOP / "crates/hid_packet/specs/Packet.antt").read_text(encoding="utf-8")
    specs = {
        name: int(value.replace("_", ""), 0) for name, value in re.findall(r"^([A-Z_]+) = ([\dxa-f_]+)$", text, re.M)
    }
    same = {
        "KEEPALIVE_MS": "KEEPALIVE_PERIOD",
        "INITIALIZATION_DATA": "INIT_PACKET_DATA",
        "CONTINUATION_DATA": "CONT_PACKET_DATA",
        "LONGEST_MESSAGE": "MAX_MESSAGE_LEN",
    }
    names = [name for name in table if same.get(name, name) in specs]
    wrong = [
        f"limit {name}: {table[name]}, {specs[same.get(name, name)]}"
        for name in names
        if table[name] != specs[same.get(name, name)]
    ]
    return wrong if len(names) >= 5 else [*wrong, f"only {names} are in the definitions"]


def compare_numbers() -> list[str]:
    """Returns the lists whose numbers differ from those of python-fido2, which uses other names."""
    compared = (
        ("subcommands of authenticatorClientPIN", read_numbers("subcommands", command="0x06"), pin.ClientPin.CMD),
        (
            "subcommands of authenticatorBioEnrollment",
            read_numbers("subcommands", command="0x09"),
            bio.FPBioEnrollment.CMD,
        ),
        (
            "subcommands of authenticatorCredentialManagement",
            read_numbers("subcommands", command="0x0a"),
            credman.CredentialManagement.CMD,
        ),
        ("subcommands of authenticatorConfig", read_numbers("subcommands", command="0x0d"), config.Config.CMD),
        ("permissions", read_numbers("permissions"), pin.ClientPin.PERMISSION),
        ("authenticatorClientPIN's response", read_numbers("members", "key", list="PIN"), pin.ClientPin.RESULT),
        (
            "authenticatorCredentialManagement's response",
            read_numbers("members", "key", list="MANAGED"),
            credman.CredentialManagement.RESULT,
        ),
    )
    return [
        f"{title}: expected {sorted(ours)}, python-fido2 has {sorted(read_enum(kind))}"
        for title, ours, kind in compared
        if set(ours) != set(read_enum(kind))
    ]


def main() -> int:
    """Compares all tables."""
    statuses = read_numbers("statuses")
    commands = read_numbers("commands")
    ctaphid = read_numbers("ctaphid_commands")
    algorithms = read_numbers("cose", list="ALGORITHMS")
    theirs = {kind.ALGORITHM: kind.__name__ for kind in cose.CoseKey.__subclasses__()}
    flags = base.AuthenticatorData.FLAG.__members__
    short = {"USER_PRESENT": "UP", "USER_VERIFIED": "UV", "ATTESTED": "AT", "EXTENSION_DATA": "ED"}
    found = [
        *find_differences("tables.py status", statuses, parse_list(tables.STATUSES)),
        *find_differences("tables.py command", commands, parse_list(tables.COMMANDS)),
        *find_differences("tables.py error", read_numbers("ctaphid_errors"), parse_list(tables.ERRORS)),
        *find_differences("status", statuses, read_enum(CtapError.ERR)),
        *find_differences("command", commands, read_enum(base.Ctap2.CMD)),
        *find_differences("ctaphid", ctaphid, read_enum(CTAPHID)),
        *find_differences("capability", read_numbers("flags", "bit", list="CAPABILITIES"), read_enum(CAPABILITY)),
        *[
            f"algorithm {number}: expected {algorithms.get(number)}, python-fido2 has {name}"
            for number, name in theirs.items()
            if number is not None and algorithms.get(number) != name
        ],
        *[
            f"flag {name} is not {int(value):#x}"
            for name, value in flags.items()
            if name in short and read_numbers("flags", "bit", list="FLAGS").get(int(value)) != short[name]
        ],
        *compare_limits(),
        *compare_numbers(),
    ]
    specs = read_definitions("hid_packet/specs/Packet.antt")
    found += [
        f"definitions: {name} is {number:#x}"
        for number, name in specs.items()
        if name != "BROADCAST" and ctaphid.get(number) != name
    ]
    for line in found:
        print(line)
    print(f"{len(statuses) + len(commands) + len(ctaphid) + len(algorithms)} names compared, {len(found)} differences")
    return 1 if found else 0


if __name__ == "__main__":
    sys.exit(main())
