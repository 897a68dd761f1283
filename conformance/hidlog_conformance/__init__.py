"""Conformance tests of CTAP 2.1 over USB HID, for authenticators and clients."""

# The version of sessions, rules and runner.
__version__ = "1.0.0"
