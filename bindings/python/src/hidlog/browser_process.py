"""The command `hidlog browser --origin URL`: a simulated browser with a key in one process. Input and output are JSON
lines.

For tests in any language. docs/use/WEBDRIVER.md describes the protocol, which `npx hidlog browser` also serves.
"""

from __future__ import annotations

import argparse
import json
import sys
from collections.abc import Callable, Iterator, Mapping
from hashlib import sha256
from io import BufferedReader
from typing import Any
from urllib.parse import urlsplit

from cryptography.hazmat.primitives.serialization import Encoding, NoEncryption, PrivateFormat

from . import entry_point
from .credentials import Credential
from .entry_point import STATUS_FAILED
from .errors import ArgumentError, HidlogError
from .files import open_input
from .key import SecurityKey
from .webauthn_errors import WebAuthnError
from .webauthn_json import b64url_decode, b64url_encode

Json = dict[str, Any]
# Maximum length of a line in bytes, without its newline.
MAX_LINE = 1 << 20
_READ_BYTES = 1 << 16
_PRESENCE = ("granted", "denied", "timeout")
_FAULTS = {
    "status": "status",
    "delay": "delay",
    "truncateBy": "truncate_by",
    "badSignature": "bad_signature",
    "staleSignCount": "stale_sign_count",
    "wrongRpId": "wrong_rp_id",
}
_OPTIONS = {
    "hasResidentKey": "has_resident_key",
    "defaultBackupEligibility": "default_backup_eligibility",
    "defaultBackupState": "default_backup_state",
}
_ATTACHMENTS = {"usb": "cross-platform", "internal": "platform"}


def _check_choice(name: str, value: Any, words: Any) -> Any:
    if value not in words:
        raise ArgumentError(f"{name} is {json.dumps(value)}; it must be one of {', '.join(map(str, words))}")
    return value


def _make_error_response(text: str) -> str:
    """Returns the response to a line that cannot be parsed."""
    return json.dumps({"error": "SyntaxError", "message": text})


def _refuse_constant(name: str) -> Any:
    raise ArgumentError(f"{name} is not a JSON number")


def _check_object(name: str, value: Any) -> Json:
    if not isinstance(value, dict):
        raise ArgumentError(f"{name} must be an object")
    return value


class Process:
    """A key, a browser, and the commands of the protocol."""

    def __init__(self, origin: str):
        self.key = SecurityKey()
        self.browser = self.key.browser(origin)
        host = urlsplit(origin).hostname or ""
        # RP IDs by their hashes, since the key stores only the hashes.
        self._rp_ids = {sha256(host.encode()).digest(): host}
        self._account: Any = 0

    def commands(self) -> Mapping[str, Callable[[Any, Json], Any]]:
        """Returns the commands by name."""
        return {
            "create": self._create,
            "get": lambda options, more: self.browser.get(options, self._account, **more),
            "setPresence": lambda word, _: setattr(self.key, "presence", _check_choice("setPresence", word, _PRESENCE)),
            "setAuthenticatorOptions": lambda value, _: self._set_options(
                _check_object("setAuthenticatorOptions", value)
            ),
            "setUserVerified": lambda value, _: self._set_verified(
                _check_choice("setUserVerified", value, (True, False))
            ),
            "selectAccount": lambda value, _: setattr(self, "_account", value),
            "setFaults": lambda value, _: self._set_faults(_check_object("setFaults", value)),
            "clearFaults": lambda *_: self.key.faults.clear(),
            "getCredentials": lambda *_: [self._describe_credential(credential) for credential in self.key.credentials],
            "addCredential": lambda value, _: self._add_credential(_check_object("addCredential", value)),
            "removeCredential": lambda value, _: self.key.credentials.remove(
                self._decode_base64url(value, "credentialId")
            ),
            "clearCredentials": lambda *_: self.key.credentials.clear(),
            "getLog": lambda *_: self.key.log.decode(),
            "getRecordings": lambda *_: [
                {"snapshot": b64url_encode(snapshot), "log": log.decode()} for snapshot, log in self.key.recordings
            ],
        }

    def _remember_rp_id(self, rp_id: Any) -> None:
        if isinstance(rp_id, str):
            self._rp_ids[sha256(rp_id.encode()).digest()] = rp_id

    def _create(self, value: Any, more: Json) -> Json:
        options = value.get("publicKey", value) if isinstance(value, dict) else {}
        rp = options.get("rp") if isinstance(options, dict) else None
        self._remember_rp_id(rp.get("id") if isinstance(rp, dict) else None)
        return self.browser.create(value, **more)

    def _set_verified(self, is_verified: bool) -> None:
        if self.key.verification == "none" and is_verified:
            raise ArgumentError("setUserVerified is true; it needs an authenticator with hasUserVerification")
        if self.key.verification != "none":
            self.key.is_user_verified = is_verified

    def _set_options(self, options: Json) -> None:
        known = ("hasUserVerification", "isUserVerified", "transport", *_OPTIONS)
        for name, value in options.items():
            _check_choice("a member of setAuthenticatorOptions", name, known)
            _check_choice(name, value, _ATTACHMENTS if name == "transport" else (True, False))
        has = options.get("hasUserVerification", self.key.verification != "none")
        is_verified = options.get("isUserVerified", self.key.verification == "verified")
        if is_verified and not has:
            raise ArgumentError("isUserVerified is true; it needs hasUserVerification")
        self.key.verification = "none" if not has else "verified" if is_verified else "failed"
        self.key.attachment = _ATTACHMENTS[options["transport"]] if "transport" in options else self.key.attachment
        for name in set(options) & set(_OPTIONS):
            setattr(self.key, _OPTIONS[name], options[name])

    def _set_faults(self, faults: Json) -> None:
        for name in faults:
            _check_choice("a fault", name, _FAULTS)
        for name, value in faults.items():
            setattr(self.key.faults, _FAULTS[name], value)

    def _decode_base64url(self, value: Any, name: str) -> bytes:
        if not isinstance(value, str):
            raise ArgumentError(f"{name} must be a base64url string")
        return b64url_decode(value.rstrip("="), name)

    def _describe_credential(self, credential: Credential) -> Json:
        private = self.key.private_keys[self.key.core_id(credential.id)]
        pkcs8 = private.private_bytes(Encoding.DER, PrivateFormat.PKCS8, NoEncryption())
        return {
            "credentialId": b64url_encode(credential.id),
            "isResidentCredential": credential.discoverable,
            "rpId": self._rp_ids.get(credential.rp_id_hash),
            "privateKey": b64url_encode(pkcs8),
            "userHandle": b64url_encode(credential.user_id),
            "userName": credential.user_name,
            "signCount": credential.sign_count,
            "backupEligibility": credential.backup_eligibility,
            "backupState": credential.backup_state,
        }

    def _add_credential(self, credential: Json) -> Json:
        known = ("credentialId", "isResidentCredential", "rpId", "privateKey", "userHandle", "userName", "signCount")
        for name in credential:
            _check_choice(
                "a member of a credential", name, (*known, "userDisplayName", "backupEligibility", "backupState")
            )
        rp_id = credential.get("rpId")
        if not isinstance(rp_id, str) or not rp_id:
            raise ArgumentError(f'rpId is {json.dumps(rp_id)}; it must be an RP ID, such as "example.com"')
        identifier, private = credential.get("credentialId"), credential.get("privateKey")
        made = self.key.credentials.add(
            rp_id,
            self._decode_base64url(credential.get("userHandle", ""), "userHandle"),
            credential.get("userName", ""),
            discoverable=credential.get("isResidentCredential", False),
            sign_count=credential.get("signCount", 0),
            credential_id=None if identifier is None else self._decode_base64url(identifier, "credentialId"),
            private_key=None if private is None else self._decode_base64url(private, "privateKey"),
            backup_eligibility=credential.get("backupEligibility", self.key.default_backup_eligibility),
            backup_state=credential.get("backupState", self.key.default_backup_state),
        )
        self._remember_rp_id(rp_id)
        return self._describe_credential(made)

    def respond(self, line: bytes) -> str:
        """Runs the command of a line, and returns the response line."""
        if len(line) > MAX_LINE:
            return _make_error_response(f"the line has more than {MAX_LINE} bytes")
        try:
            return json.dumps(self._respond(line))
        except RecursionError:
            return _make_error_response("the line is nested too deeply")

    def _respond(self, line: bytes) -> Json:
        made: Json = {}
        try:
            request = json.loads(line.decode(), parse_constant=_refuse_constant)
            made = {"id": request["id"]} if isinstance(request, dict) and "id" in request else {}
            return {**made, "value": self._serve(request)}
        except WebAuthnError as error:
            return {**made, "error": error.name, "message": str(error)}
        except (json.JSONDecodeError, UnicodeDecodeError) as error:
            return {**made, "error": "SyntaxError", "message": f"a line must be a JSON object: {error}"}
        except (HidlogError, ValueError, TypeError) as error:
            return {**made, "error": "TypeError", "message": str(error)}
        except RecursionError:
            raise
        except Exception as error:  # a bug in this package: the process continues, because it has the keys
            return {**made, "error": "UnknownError", "message": f"{type(error).__name__}: {error}"}

    def _serve(self, request: Any) -> Any:
        commands = self.commands()
        found = [name for name in request if name not in ("id", "mediation")] if isinstance(request, dict) else []
        if len(found) != 1 or found[0] not in commands:
            text = 'a line must be an object with one command, such as {"get": {..}}; commands: '
            raise ArgumentError(text + ", ".join(commands))
        if request.get("mediation") == "conditional":
            raise ArgumentError(
                "conditional mediation is not supported: there is no user interface to select an account"
            )
        more = {"mediation": request["mediation"]} if "mediation" in request else {}
        return commands[found[0]](request[found[0]], more)


def main(args: list[str] | None = None) -> int:
    """Serves lines until standard input ends."""
    parser = argparse.ArgumentParser(
        prog="hidlog browser", description="A browser with a security key, driven by JSON lines."
    )
    parser.add_argument("--origin", required=True, help="origin of the page, such as https://example.com")
    options = parser.parse_args(args)
    try:
        process = Process(options.origin)
    except HidlogError as error:
        print(f"hidlog: {error}", file=sys.stderr)
        return STATUS_FAILED
    with process.key, open_input("-") as file:
        for line in _read_lines(file):
            if line.strip():
                print(process.respond(line), flush=True)
    return 0


def _read_lines(file: BufferedReader) -> Iterator[bytes]:
    """Yields the lines as they arrive. A line that is too long is truncated, but is still longer than the maximum."""
    rest = b""
    while piece := file.read1(_READ_BYTES):
        first, *more = piece.split(b"\n")
        rest = (rest + first)[: MAX_LINE + 1]
        if more:
            yield from (rest, *more[:-1])
            rest = more[-1]
    if rest:
        yield rest


if __name__ == "__main__":
    sys.exit(entry_point.run("hidlog browser", main))
