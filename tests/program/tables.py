"""Cases generated from tables, and cases with invisible characters, in the format of cases.txt.

The tables are those of CTAP 2.1, RFC 8949 and docs/use/LOG_FORMAT.md.
"""

from __future__ import annotations

from typing import Iterator

COUNTS = "= held 0 rows 0 pending 0 requests 0 bytes 0 steps 0"

# Status codes with their names (CTAP 2.1, section 8.2), and some numbers without a name.
STATUSES = """\
00 CTAP2_OK
01 CTAP1_ERR_INVALID_COMMAND
02 CTAP1_ERR_INVALID_PARAMETER
03 CTAP1_ERR_INVALID_LENGTH
04 CTAP1_ERR_INVALID_SEQ
05 CTAP1_ERR_TIMEOUT
06 CTAP1_ERR_CHANNEL_BUSY
0a CTAP1_ERR_LOCK_REQUIRED
0b CTAP1_ERR_INVALID_CHANNEL
11 CTAP2_ERR_CBOR_UNEXPECTED_TYPE
12 CTAP2_ERR_INVALID_CBOR
14 CTAP2_ERR_MISSING_PARAMETER
15 CTAP2_ERR_LIMIT_EXCEEDED
17 CTAP2_ERR_FP_DATABASE_FULL
18 CTAP2_ERR_LARGE_BLOB_STORAGE_FULL
19 CTAP2_ERR_CREDENTIAL_EXCLUDED
21 CTAP2_ERR_PROCESSING
22 CTAP2_ERR_INVALID_CREDENTIAL
23 CTAP2_ERR_USER_ACTION_PENDING
24 CTAP2_ERR_OPERATION_PENDING
25 CTAP2_ERR_NO_OPERATIONS
26 CTAP2_ERR_UNSUPPORTED_ALGORITHM
27 CTAP2_ERR_OPERATION_DENIED
28 CTAP2_ERR_KEY_STORE_FULL
2b CTAP2_ERR_UNSUPPORTED_OPTION
2c CTAP2_ERR_INVALID_OPTION
2d CTAP2_ERR_KEEPALIVE_CANCEL
2e CTAP2_ERR_NO_CREDENTIALS
2f CTAP2_ERR_USER_ACTION_TIMEOUT
30 CTAP2_ERR_NOT_ALLOWED
31 CTAP2_ERR_PIN_INVALID
32 CTAP2_ERR_PIN_BLOCKED
33 CTAP2_ERR_PIN_AUTH_INVALID
34 CTAP2_ERR_PIN_AUTH_BLOCKED
35 CTAP2_ERR_PIN_NOT_SET
36 CTAP2_ERR_PUAT_REQUIRED
37 CTAP2_ERR_PIN_POLICY_VIOLATION
39 CTAP2_ERR_REQUEST_TOO_LARGE
3a CTAP2_ERR_ACTION_TIMEOUT
3b CTAP2_ERR_UP_REQUIRED
3c CTAP2_ERR_UV_BLOCKED
3d CTAP2_ERR_INTEGRITY_FAILURE
3e CTAP2_ERR_INVALID_SUBCOMMAND
3f CTAP2_ERR_UV_INVALID
40 CTAP2_ERR_UNAUTHORIZED_PERMISSION
7f CTAP1_ERR_OTHER
df CTAP2_ERR_SPEC_LAST
e0 CTAP2_ERR_EXTENSION_FIRST
ef CTAP2_ERR_EXTENSION_LAST
f0 CTAP2_ERR_VENDOR_FIRST
ff CTAP2_ERR_VENDOR_LAST
13
38
41
e1
fe
"""

# The authenticator's commands with their names (section 6), and some numbers without a name.
COMMANDS = """\
01 authenticatorMakeCredential
02 authenticatorGetAssertion
04 authenticatorGetInfo
06 authenticatorClientPIN
07 authenticatorReset
08 authenticatorGetNextAssertion
09 authenticatorBioEnrollment
0a authenticatorCredentialManagement
0b authenticatorSelection
0c authenticatorLargeBlobs
0d authenticatorConfig
00
03
05
40
ff
"""

# The codes of ERROR packets with their names (section 11.2.9.1.6), and one number without a name.
ERRORS = """\
01 ERR_INVALID_CMD
02 ERR_INVALID_PAR
03 ERR_INVALID_LEN
04 ERR_INVALID_SEQ
05 ERR_MSG_TIMEOUT
06 ERR_CHANNEL_BUSY
0a ERR_LOCK_REQUIRED
0b ERR_INVALID_CHANNEL
7f ERR_OTHER
07
"""

# CTAPHID commands, with the output for a message of 65535 bytes that begins with a0.
CTAPHID_MESSAGES = {
    0x01: "PING 65535",
    0x03: "MSG 65535",
    0x04: "LOCK 65535",
    0x06: "INIT 65535",
    0x08: "WINK 65535",
    0x10: "CBOR 65535",
    0x11: "CANCEL 65535",
    0x3B: "KEEPALIVE 65535 a0",
    0x3F: "ERROR 65535 a0",
}

# Texts in CBOR with the first and last character of each range that is escaped, and the adjacent characters, which are
# not escaped. The ranges are control characters, line breaks, Unicode's Default_Ignorable_Code_Point
# (DerivedCoreProperties.txt), U+2800, and U+FFF9 to U+FFFB (interlinear annotations).
INVISIBLE_CHARACTERS = """\
66c280c29fc2a0 \\u0080\\u009f\u00a0
66c2acc2adc2ae \u00ac\\u00ad\u00ae
66cd8ecd8fcd90 \u034e\\u034f\u0350
66d89bd89cd89d \u061b\\u061c\u061d
6ce1859ee1859fe185a0e185a1 \u115e\\u115f\\u1160\u1161
6ce19eb3e19eb4e19eb5e19eb6 \u17b3\\u17b4\\u17b5\u17b6
6ce1a08ae1a08be1a08fe1a090 \u180a\\u180b\\u180f\u1810
6ce2808ae2808be2808fe28090 \u200a\\u200b\\u200f\u2010
6ce280a7e280a8e280aee280af \u2027\\u2028\\u202e\u202f
6ce2819fe281a0e281afe281b0 \u205f\\u2060\\u206f\u2070
69e29fbfe2a080e2a081 \u27ff\\u2800\u2801
69e385a3e385a4e385a5 \u3163\\u3164\u3165
6cefb7bfefb880efb88fefb890 \ufdff\\ufe00\\ufe0f\ufe10
69efbbbeefbbbfefbc80 \ufefe\\ufeff\uff00
69efbe9fefbea0efbea1 \uff9f\\uffa0\uffa1
6cefbfafefbfb0efbfbbefbfbc \uffef\\ufff0\\ufffb\ufffc
70f09bb29ff09bb2a0f09bb2a3f09bb2a4 \U0001bc9f\\u{01bca0}\\u{01bca3}\U0001bca4
70f09d85b2f09d85b3f09d85baf09d85bb \U0001d172\\u{01d173}\\u{01d17a}\U0001d17b
70f39fbfbff3a08080f3a0bfbff3a18080 \U000dffff\\u{0e0000}\\u{0e0fff}\U000e1000
64f09f9982 🙂
"""

# Items with their diagnostic notation: first those of RFC 8949, appendix A, and then the bounds of what is escaped,
# four levels of nesting, and keys of each type.
ITEMS = """\
00 0
1864 100
1b000000e8d4a51000 1000000000000
1bffffffffffffffff 18446744073709551615
3bffffffffffffffff -18446744073709551616
20 -1
3863 -100
f4 false
f5 true
f6 null
40 h''
4401020304 h'01020304'
60 ""
6449455446 "IETF"
62225c "\\"\\\\"
62c3bc "ü"
63e6b0b4 "水"
64f0908591 "𐅑"
80 []
83010203 [1, 2, 3]
8301820203820405 [1, [2, 3], [4, 5]]
a0 {}
a201020304 {1: 2, 3: 4}
a26161016162820203 {"a": 1, "b": [2, 3]}
826161a161626163 ["a", {"b": "c"}]
6400090a1f "\\u0000\\u0009\\u000a\\u001f"
65207e7fc2a0 " ~\\u007f\u00a0"
8282a12081f680a0 [[{-1: [null]}, []], {}]
a320f441abf5612ff6 {-1: false, h'ab': true, "/": null}
"""

# Requests of one packet. The command 05 has no name. Offsets of errors are counted from the byte after the command.
REQUEST_CASES = """\
2d 2d
01 01  authenticatorMakeCredential
0500 05 0
050000 05 fault 9 at 1  Trailing: bytes after the item
02a202000100 02 fault 6 at 3  authenticatorGetAssertion  KeyOrder: a map's key that isn't above the one before it
05a1f500 05 fault 5 at 1  KeyType: a map's key that is no integer, byte string or text
05818181818100 05 fault 4 at 4  TooDeep: an array or a map within four others
0562c3 05 fault 1 at 0  Truncated: the item ends early
ff1805 ff fault 3 at 0  NotShortest: a number or a length that has a shorter encoding
05f90000 05 fault 8 at 0  Unsupported: a tag, a float or a simple value
051c 05 fault 2 at 0  Reserved: a length that is reserved or indefinite
0561ff 05 fault 7 at 0  NotUtf8: a text that isn't UTF-8
"""

# Lines with invisible characters, and lines of 255 and 256 bytes.
LINE_CASES = [
    "1 hidlog replay --explain\n-t 5\r\n?hidlog: line 1: not a log line\n"
    "?  byte 4 is a carriage return: lines end with a line feed alone (tr -d '\\r' drops the others)",
    "1 hidlog replay --explain\n-\r\n?hidlog: line 1: not a log line\n"
    "?  byte 1 is a carriage return: lines end with a line feed alone (tr -d '\\r' drops the others)",
    "1 hidlog replay --explain\n-\ufefft 5\n?hidlog: line 1: not a log line\n?  byte 1 is a byte order mark, which a log must not have",
    "1 hidlog replay --explain\n|t 5\n-\x20\n?hidlog: line 2: not a log line\n?  byte 1 is ' ': a log line begins with >, <, t, p, k, s, # or =",
    f"0 hidlog replay\n|{'#' * 255}\n!\n+{COUNTS}",
    f"1 hidlog replay\n-{'#' * 256}\n!\n?hidlog: line 1: longer than 255 bytes",
    f"1 hidlog replay --explain\n-{'x' * 255}\n!\n?hidlog: line 1: not a log line\n?  byte 1 is 'x': a log line begins with >, <, t, p, k, s, # or =",
    f"1 hidlog replay\n-{'x' * 256}\n!\n?hidlog: line 1: longer than 255 bytes",
]
# Of its input, `live` drops only comments about needs.
COMMENT_CASES = [
    "0 hidlog live\n|#\n|#\x20\n|# need\n|# needs\n|#need key\n|# Need key\n|# signed\n|# signedness\n|#  need key\n"
    f"|# a need\n+{COUNTS}",
    "0 hidlog live\n-# need\x20\n-# need nothing\n-# need more\n-# need\x20\x20\n-# signed\x20\n-# signed 00\n-# signed xx\n"
    "|t 5\n+# need nothing\n"
    "-# need\x20\n-# need nothing\n-# need more\n-# need\x20\x20\n-# signed\x20\n-# signed 00\n-# signed xx\n!\n"
    f"+{COUNTS}",
]
# Comments, and the output of `show` for them.
SHOW_CASES = [
    '0 hidlog show --explain\n-# alice "registers" \\ \x1b[31m\x9b\u202e\u2066\ufeff\U000e0041ü\n-#\n'
    '+1 # alice "registers" \\ \\u001b[31m\\u009b\\u202e\\u2066\\ufeff\\u{0e0041}ü\n+2 #',
    '0 hidlog show --json\n-# "a" \\ \x1b\x9b\u202eü\U000e0041\n'
    '+{"kind":"format","format":2}\n'
    '+{"line":1,"kind":"comment","text":"# \\"a\\" \\\\ \\u001b\\u009b\\u202eü\\udb40\\udc41"}',
]


def iter_rows(table: str) -> Iterator[tuple[str, str]]:
    """Yields the first word and the rest of each line of a table."""
    for line in table.rstrip("\n").split("\n"):
        first, _, rest = line.partition(" ")
        yield first, rest


def format_name(name: str) -> str:
    """Returns the output for a name at the end of a line, if any."""
    return f"  {name}" if name else ""


def make_message_case(data: str, shown: str) -> str:
    """Returns the case of a CBOR message that a host sends in one packet."""
    length = len(data) // 2
    return f"0 hidlog show --explain\n-> 0 0000000190{length:04x}{data}..\n+1 > 0 00000001 CBOR {length}\n+1   request {shown}"


def make_long_message_case(length: int, end: str) -> str:
    """Returns the case of a message that the key sends in 129 packets: its first byte, and a byte string of zeros."""
    first = f"-< 0000000190{length:04x}0059{length - 4:04x}..\n+1 < 00000001 CBOR {length}\n"
    rest = (f"-< 00000001{number:02x}..\n+{number + 2} < 00000001 +{number}\n" for number in range(128))
    return ("0 hidlog show --explain\n" + first + "".join(rest) + end).rstrip("\n")


def iter_cases() -> Iterator[str]:
    """Yields the cases."""
    for number, name in iter_rows(STATUSES):
        head = f"0 hidlog show --explain\n-< 00000001900001{number}..\n+1 < 00000001 CBOR 1\n"
        yield f"{head}+1   answer {number}{format_name(name)}"
    for number, name in iter_rows(COMMANDS):
        yield make_message_case(number, number + format_name(name))
    for number, name in iter_rows(ERRORS):
        yield f"0 hidlog show --explain\n-< 00000001bf0001{number}..\n+1 < 00000001 ERROR 1 {number}{format_name(name)}"
    for command in range(128):
        shown = CTAPHID_MESSAGES.get(command, f"0x{command:02x} 65535")
        yield f"0 hidlog show --explain\n-< 0123abcd{command | 128:02x}ffffa0..\n+1 < 0123abcd {shown}"
    for item, text in iter_rows(INVISIBLE_CHARACTERS):
        yield make_message_case(f"05{item}", f'05 "{text}"')
    for item, text in iter_rows(ITEMS):
        yield make_message_case(f"05{item}", f"05 {text}")
    for request, text in iter_rows(REQUEST_CASES):
        yield make_message_case(request, text)
    yield make_long_message_case(7609, f"+129   answer 00 h'{'0' * 15210}'  CTAP2_OK")
    yield make_long_message_case(7610, "")
    yield from [*LINE_CASES, *COMMENT_CASES, *SHOW_CASES]
    # Arguments with characters that move a terminal's cursor (ESC) or reverse the line (RIGHT-TO-LEFT OVERRIDE).
    yield (
        "2 hidlog --a\x1b[2J\u202eb\n?error: unexpected argument '--a\\u001b[2J\\u202eb' found\n?\n"
        "?Usage: hidlog <COMMAND>\n?\n?For more information, try '--help'."
    )
