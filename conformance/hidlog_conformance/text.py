"""Formats numbers with their nouns, and escapes control and invisible characters in texts of devices and clients."""

from __future__ import annotations

import unicodedata

# Unicode categories of invisible characters, and of those that change how others are displayed.
HIDDEN_CATEGORIES = ("Cc", "Cf", "Cs", "Co", "Cn", "Zl", "Zp")


def quantity(count: int, noun: str, plural: str = "") -> str:
    """Returns "1 byte", "2 bytes"; `plural` is for nouns whose plural is not the noun with an s."""
    return f"{count} {noun}" if count == 1 else f"{count} {plural or noun + 's'}"


def escape_text(text: str) -> str:
    """Returns the text with control and invisible characters escaped. XML's markup is left to the caller."""
    parts = []
    for letter in text:
        if unicodedata.category(letter) in HIDDEN_CATEGORIES:
            parts.append(f"\\u{ord(letter):04x}" if ord(letter) < 0x10000 else f"\\U{ord(letter):08x}")
        else:
            parts.append(letter)
    return "".join(parts)
