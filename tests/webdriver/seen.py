#!/usr/bin/env python3
"""Compares the results that a test suite gets of a virtual authenticator with chromedriver and with the proxy, line by
line.

    tests/webdriver/seen.py           exits with 3 if chromedriver is missing
    tests/webdriver/seen.py --show    also prints each line

Each method `line_..` of ObservedSession returns a line: credentials, attestation, flags, signals, autofill, extensions. Signatures are verified
by cryptography.
"""

from __future__ import annotations

import json
import shutil
import subprocess
import sys
import tempfile
from collections.abc import Callable
from functools import partial
from pathlib import Path
from typing import Any

from cryptography.hazmat.primitives import serialization as encodings
from cryptography.hazmat.primitives.asymmetric import ec, ed25519, rsa

from responses import (
    Json,
    decode_base64url,
    encode_base64url,
    is_signed,
    encode_pkcs8,
    read_authenticator_data,
    summarize_attestation,
)
from run import ENVIRONMENT, FileHandler, call, find_free_port, make_proxy_command, start_process, start_server

HERE = Path(__file__).resolve().parent
SCRIPT = (HERE / "seen.js").read_text(encoding="utf-8")
SIGNALS = ("AllAcceptedCredentials", "CurrentUserDetails", "UnknownCredential")
EXTENSIONS = ["appid", "appidExclude", "credBlob", "credentialProtectionPolicy", "hmacCreateSecret", "largeBlob"]
EXTENSIONS += ["minPinLength", "prf"]
# Client capabilities: those that both have, those that only Chromium has, and those that only Chromium names.
SHARED_CAPABILITIES = dict.fromkeys(("conditionalGet", "extension:credProps", "passkeyPlatformAuthenticator"), True)
SHARED_CAPABILITIES.update(dict.fromkeys((f"signal{name}" for name in SIGNALS), True))
SHARED_CAPABILITIES.update({"hybridTransport": False, "userVerifyingPlatformAuthenticator": True})
CHROMIUM_HAS = ["conditionalCreate", "relatedOrigins", *[f"extension:{name}" for name in EXTENSIONS]]
CHROMIUM_NAMES = {
    "immediateGet": True,
    "extension:enforceCredentialProtectionPolicy": True,
    "extension:getCredBlob": True,
}
CHROMIUM_NAMES.update({f"extension:{name}": False for name in ("cmtgKey", "crossDeviceFallbackUrl", "payment")})
# For each line that differs: the reason, and the exact values with chromedriver and with the proxy.
EXPECTED_DIFFERENCES: dict[str, tuple[str, Any, Any]] = {
    "a new counter": ("the core's counter is that of the last sign-in (docs/use/PROFILE.md)", 1, 0),
    "ml dsa alone": ("WebCrypto has no ML-DSA", -48, "NotAllowedError"),
    "client capabilities": (
        "they describe the key, which has no extensions here",
        {**SHARED_CAPABILITIES, **dict.fromkeys(CHROMIUM_HAS, True), **CHROMIUM_NAMES},
        {**SHARED_CAPABILITIES, **dict.fromkeys(CHROMIUM_HAS, False)},
    ),
}
MIN_LINES = 45


class ObservedSession:
    """A browser session with a page and one authenticator at a time. Its methods `line_..` return what a suite gets."""

    def __init__(self, url: str, page: str):
        options = {"args": ["--headless=new", "--no-sandbox", "--disable-dev-shm-usage"]}
        wanted = {"capabilities": {"alwaysMatch": {"goog:chromeOptions": options}}}
        self.url = f"{url}/session/{call('POST', f'{url}/session', wanted)[1]['sessionId']}"
        self.post("/timeouts", {"script": 300_000})
        self.post("/url", {"url": page})
        self.key = ""

    def end_session(self) -> None:
        call("DELETE", self.url)

    # What a suite does.

    def post(self, path: str, given: Any) -> tuple[int, Any]:
        return call("POST", self.url + path, given)

    def add_authenticator(self, **options: Any) -> Any:
        """Adds an authenticator. By default, it is a platform authenticator with user verification. Returns the error,
        if any."""
        self.remove_authenticator()
        given = {"protocol": "ctap2", "transport": "internal", "hasResidentKey": True, "hasUserVerification": True}
        status, value = self.post("/webauthn/authenticator", {**given, "isUserVerified": True, **options})
        self.key = f"/webauthn/authenticator/{value}" if status == 200 else ""
        return None if status == 200 else value["error"]

    def remove_authenticator(self) -> Any:
        return call("DELETE", self.url + self.key) if self.key else None

    def call_page(self, function: str, **words: Any) -> Any:
        return self.post("/execute/async", {"script": SCRIPT, "args": [function, words]})[1]

    def create(self, **options: Any) -> Any:
        return self.call_page("create", **options)

    def create_passkey(self, user: str = "ann", **options: Any) -> Any:
        selection = {"residentKey": "required", "userVerification": "required"}
        return self.create(user=user, authenticatorSelection=selection, **options)

    def get(self, **options: Any) -> Any:
        return self.call_page("get", **options)

    def list_credentials(self) -> Any:
        listed = call("GET", f"{self.url}{self.key}/credentials")[1]
        return sorted(listed, key=lambda credential: str(credential.get("userName", "")))

    def add_credential(self, private: Any, name: str = "cred", **more: Any) -> Any:
        """Adds a passkey, and returns the result of the command."""
        given = {
            "isResidentCredential": True,
            "rpId": "localhost",
            "signCount": 5,
            "userHandle": encode_base64url(name.encode()),
        }
        given.update({"credentialId": encode_base64url(name.encode()), "privateKey": encode_pkcs8(private), **more})
        wanted = {member: one for member, one in given.items() if one is not None}
        status, value = self.post(f"{self.key}/credential", wanted)
        return [status, value] if status == 200 else [status, value["error"]]

    def sign_in_with(self, private: Any) -> Any:
        """Adds a credential with this private key, and returns the result of a sign-in."""
        added = self.add_credential(private)
        used = self.get(allow=[encode_base64url(b"cred")])
        if "error" in used:
            return [added, used["error"]]
        public = private.public_key().public_bytes(encodings.Encoding.DER, encodings.PublicFormat.SubjectPublicKeyInfo)
        return [added, used["user"], read_authenticator_data(used)["flags"], is_signed(encode_base64url(public), used)]

    # Credentials.

    def line_members_of_a_credential(self) -> Any:
        self.add_authenticator()
        self.create()
        return sorted(self.list_credentials()[0])

    def line_a_credential_of_a_page(self) -> Any:
        self.add_authenticator()
        self.create_passkey()
        random = ("credentialId", "privateKey", "signCount")
        return {name: value for name, value in self.list_credentials()[0].items() if name not in random}

    def line_a_non_resident_credential(self) -> Any:
        self.add_authenticator()
        self.add_credential(ec.generate_private_key(ec.SECP256R1()), isResidentCredential=False, userHandle=None)
        return [sorted(self.list_credentials()[0]), self.get(allow=[encode_base64url(b"cred")])["user"]]

    def line_exported_private_key(self) -> Any:
        self.add_authenticator()
        made = self.create()
        private: Any = encodings.load_der_private_key(decode_base64url(self.list_credentials()[0]["privateKey"]), None)
        form = encodings.PublicFormat.SubjectPublicKeyInfo
        return encode_base64url(private.public_key().public_bytes(encodings.Encoding.DER, form)) == made["spki"]

    def line_a_new_counter(self) -> Any:
        self.add_authenticator()
        self.create()
        return self.list_credentials()[0]["signCount"]

    def line_an_added_counter(self) -> Any:
        self.add_authenticator()
        self.add_credential(ec.generate_private_key(ec.SECP256R1()))
        self.get(allow=[encode_base64url(b"cred")])
        return self.list_credentials()[0]["signCount"]

    def line_import_p256(self) -> Any:
        self.add_authenticator()
        return self.sign_in_with(ec.generate_private_key(ec.SECP256R1()))

    def line_import_ed25519(self) -> Any:
        self.add_authenticator()
        return self.sign_in_with(ed25519.Ed25519PrivateKey.generate())

    def line_import_rsa(self) -> Any:
        self.add_authenticator()
        return self.sign_in_with(rsa.generate_private_key(65537, 2048))

    def line_import_names(self) -> Any:
        self.add_authenticator()
        self.add_credential(ec.generate_private_key(ec.SECP256R1()), userName="ann", userDisplayName="Ann")
        return [self.list_credentials()[0][name] for name in ("userName", "userDisplayName", "userHandle")]

    def line_import_backup_flags(self) -> Any:
        self.add_authenticator()
        flags: Json = {"backupEligibility": True, "backupState": True}
        self.add_credential(ec.generate_private_key(ec.SECP256R1()), **flags)
        used = self.get(allow=[encode_base64url(b"cred")])
        return [read_authenticator_data(used)["flags"], [self.list_credentials()[0][name] for name in flags]]

    def line_import_twice(self) -> Any:
        self.add_authenticator()
        private = ec.generate_private_key(ec.SECP256R1())
        self.add_credential(private)
        return [self.add_credential(private)[0] >= 400, len(self.list_credentials())]

    def line_import_an_exported_one(self) -> Any:
        self.add_authenticator()
        made = self.create_passkey()
        exported = self.list_credentials()[0]
        self.add_authenticator()
        status = self.post(f"{self.key}/credential", exported)[0]
        used = self.get()
        return [status, used["id"] == made["id"], is_signed(made["spki"], used)]

    def line_remove_one(self) -> Any:
        self.add_authenticator()
        self.create_passkey()
        one = self.list_credentials()[0]["credentialId"]
        removed = [call("DELETE", f"{self.url}{self.key}/credentials/{one}") for _ in range(2)]
        return [removed[0], removed[1][0], removed[1][1]["error"], self.list_credentials()]

    def line_results_of_commands(self) -> Any:
        self.add_authenticator()
        self.create()
        one = self.list_credentials()[0]["credentialId"]
        return [
            self.post(f"{self.key}/uv", {"isUserVerified": False}),
            self.post(f"{self.key}/credentials/{one}/props", {"backupState": True}),
            call("DELETE", f"{self.url}{self.key}/credentials"),
        ]

    def line_the_end_of_an_authenticator(self) -> Any:
        self.add_authenticator()
        removed = self.remove_authenticator()
        self.key = ""
        return removed

    # Attestation and algorithms.

    def show_attestations(self, *requested: str, **options: Any) -> Any:
        self.add_authenticator(**options)
        return [summarize_attestation(self.create(attestation=one, user=one)) for one in requested]

    def line_attestation_none(self) -> Any:
        return self.show_attestations("none")

    def line_attestation_none_over_usb(self) -> Any:
        return self.show_attestations("none", transport="usb")

    def line_attestation_direct(self) -> Any:
        return self.show_attestations("direct")

    def line_attestation_direct_over_usb(self) -> Any:
        return self.show_attestations("direct", transport="usb")

    def line_attestation_indirect_and_enterprise(self) -> Any:
        return self.show_attestations("indirect", "enterprise")

    def line_attestation_unknown(self) -> Any:
        return self.show_attestations("some")

    def register_with(self, *algorithms: int, **options: Any) -> Any:
        """Registers and signs in. Returns the algorithm, and whether both signatures are valid."""
        self.add_authenticator()
        made = self.create(algorithms=list(algorithms), **options)
        if "error" in made:
            return made["error"]
        used = self.get(allow=[made["id"]])
        seen = [
            made["algorithm"],
            read_authenticator_data(made)["kty"],
            read_authenticator_data(made)["alg"],
            made["json"],
        ]
        return [*seen, is_signed(made["spki"], used), summarize_attestation(made)]

    def line_eddsa_alone(self) -> Any:
        return self.register_with(-8)

    def line_eddsa_first(self) -> Any:
        return self.register_with(-8, -7, attestation="direct")

    def line_rs256_alone(self) -> Any:
        return self.register_with(-257)

    def line_rs256_first(self) -> Any:
        return self.register_with(-257, -8, -7, attestation="direct")

    def line_an_unknown_algorithm_first(self) -> Any:
        return self.register_with(-65535, -35, -7)

    def line_es384_alone(self) -> Any:
        return self.register_with(-35)

    def line_ml_dsa_alone(self) -> Any:
        made = self.create(algorithms=[-48]) if self.add_authenticator() is None else {}
        return made.get("error", made.get("algorithm"))

    def line_no_algorithm(self) -> Any:
        return self.register_with()

    # Flags.

    def line_flags_with_verification(self) -> Any:
        self.add_authenticator()
        made = self.create()
        flags = [made, *[self.get(allow=[made["id"]], userVerification=word) for word in ("required", "discouraged")]]
        return [read_authenticator_data(one)["flags"] for one in flags]

    def line_flags_without_verification(self) -> Any:
        self.add_authenticator(transport="usb", hasUserVerification=False, isUserVerified=False)
        made = self.create()
        return [read_authenticator_data(made)["flags"], read_authenticator_data(self.get(allow=[made["id"]]))["flags"]]

    def line_failed_user_verification(self) -> Any:
        self.add_authenticator()
        made = self.create()
        self.post(f"{self.key}/uv", {"isUserVerified": False})
        used = [self.get(allow=[made["id"]], userVerification=word) for word in ("required", "discouraged")]
        return [one.get("error") for one in used]

    def line_default_backup_flags(self) -> Any:
        self.add_authenticator(defaultBackupEligibility=True, defaultBackupState=True)
        made = self.create()
        listed = self.list_credentials()[0]
        self.post(f"{self.key}/credentials/{made['id']}/props", {"backupState": False})
        used = self.get(allow=[made["id"]])
        return [
            [read_authenticator_data(one)["flags"] for one in (made, used)],
            listed["backupState"],
            self.list_credentials()[0]["backupState"],
        ]

    def line_user_without_reaction(self) -> Any:
        self.add_authenticator(isUserConsenting=False)
        return self.create(timeout=500).get("error")

    # Signals and autofill.

    def line_signal_an_unknown_credential(self) -> Any:
        self.add_authenticator()
        made = [self.create_passkey(user) for user in ("ann", "bob")]
        for one in (encode_base64url(b"other"), made[0]["id"]):
            self.call_page("signal", method="signalUnknownCredential", rpId="localhost", credentialId=one)
        return [credential["userName"] for credential in self.list_credentials()]

    def line_signal_accepted_credentials(self) -> Any:
        self.add_authenticator()
        made = [self.create_passkey(user) for user in ("ann", "bob")]
        for user, accepted in (("ann", []), ("bob", [made[1]["id"]])):
            given = {
                "rpId": "localhost",
                "userId": encode_base64url(user.encode()),
                "allAcceptedCredentialIds": accepted,
            }
            self.call_page("signal", method="signalAllAcceptedCredentials", **given)
        return [credential["userName"] for credential in self.list_credentials()]

    def line_signal_user_details(self) -> Any:
        self.add_authenticator()
        self.create_passkey()
        names = {"name": "anne", "displayName": "Anne"}
        self.call_page(
            "signal", method="signalCurrentUserDetails", rpId="localhost", userId=encode_base64url(b"ann"), **names
        )
        return [self.list_credentials()[0][name] for name in ("userName", "userDisplayName")]

    def line_signal_of_another_rp(self) -> Any:
        self.add_authenticator()
        given = {"rpId": "example.com", "credentialId": "AQID"}
        return self.call_page("signal", method="signalUnknownCredential", **given)["error"]

    def line_autofill(self) -> Any:
        self.add_authenticator()
        self.create_passkey()
        used = self.get(mediation="conditional", waits=20_000)
        return [used.get("user"), used.get("error")]

    def line_autofill_without_a_passkey(self) -> Any:
        self.add_authenticator()
        self.create(authenticatorSelection={"residentKey": "discouraged"})
        return self.get(mediation="conditional", waits=20_000).get("error")

    def line_is_autofill_available(self) -> Any:
        seen = []
        for transport in ("internal", "usb"):
            self.add_authenticator(transport=transport)
            methods = ("isConditionalMediationAvailable", "isUserVerifyingPlatformAuthenticatorAvailable")
            seen += [self.call_page("ask", method=method) for method in methods]
        return seen

    def line_client_capabilities(self) -> Any:
        self.add_authenticator()
        return self.call_page("ask", method="getClientCapabilities")

    # Extensions.

    def line_refused_extensions(self) -> Any:
        return [
            self.add_authenticator(extensions=[name])
            for name in ("uvm", "other", "largeBlob", "credBlob", "minPinLength")
        ]

    def line_cred_props(self) -> Any:
        self.add_authenticator()
        made = [self.create_passkey(extensions={"credProps": True}), self.create(extensions={"credProps": True})]
        return [one["extensions"] for one in made]

    def line_prf(self) -> Any:
        self.add_authenticator(extensions=["prf"])
        made = self.create_passkey(extensions={"prf": {}})
        used = [
            self.get(extensions={"prf": {"eval": values}}) for values in ({"first": "a"}, {"first": "b", "second": "a"})
        ]
        results = [one["extensions"]["prf"]["results"] for one in used]
        lengths = [{name: len(decode_base64url(value)) for name, value in result.items()} for result in results]
        is_same = results[0]["first"] == results[1]["second"] != results[1]["first"]
        return [
            made["extensions"],
            read_authenticator_data(made)["flags"],
            lengths,
            is_same,
            read_authenticator_data(used[0])["extensions"],
        ]

    def line_prf_in_a_registration(self) -> Any:
        self.add_authenticator(extensions=["prf"])
        inputs = {"prf": {"eval": {"first": "a"}}}
        made = self.create_passkey(extensions=inputs)["extensions"]["prf"]
        used = self.get(extensions=inputs)["extensions"]["prf"]
        return [made["enabled"], made["results"] == used["results"]]

    def line_prf_of_a_key_without_it(self) -> Any:
        self.add_authenticator()
        made = self.create_passkey(extensions={"prf": {}})
        return [made["extensions"], self.get(extensions={"prf": {"eval": {"first": "a"}}})["extensions"]]

    def line_large_blob(self) -> Any:
        self.add_authenticator(protocol="ctap2_1", extensions=["largeBlob"])
        made = self.create_passkey(extensions={"largeBlob": {"support": "required"}})
        used = [
            self.get(allow=[made["id"]], extensions={"largeBlob": one})
            for one in ({"read": True}, {"write": "hello"}, {"read": True})
        ]
        return [[one["extensions"] for one in (made, *used)], self.list_credentials()[0]["largeBlob"]]

    def line_large_blob_of_an_import(self) -> Any:
        self.add_authenticator(protocol="ctap2_1", extensions=["largeBlob"])
        added = self.add_credential(ec.generate_private_key(ec.SECP256R1()), largeBlob=encode_base64url(b"blob"))
        return [added, self.get(extensions={"largeBlob": {"read": True}})["extensions"]]

    def line_large_blob_not_resident(self) -> Any:
        self.add_authenticator(protocol="ctap2_1", extensions=["largeBlob"])
        return self.create(extensions={"largeBlob": {"support": "required"}}).get("error")

    def line_cred_protect(self) -> Any:
        self.add_authenticator(protocol="ctap2_1", extensions=["credBlob"])
        policy = {"credentialProtectionPolicy": "userVerificationRequired", "enforceCredentialProtectionPolicy": True}
        made = [self.create_passkey(), self.create_passkey("bob", extensions=policy)]
        unverified = [self.get(allow=[one["id"]], userVerification="discouraged").get("error") for one in made]
        return [[read_authenticator_data(one)["extensions"] for one in made], unverified]

    def line_cred_blob(self) -> Any:
        self.add_authenticator(protocol="ctap2_1", extensions=["credBlob"])
        made = self.create_passkey(extensions={"credBlob": "blob"})
        used = self.get(extensions={"getCredBlob": True})
        return [
            [one["extensions"], read_authenticator_data(one)["extensions"], read_authenticator_data(one)["flags"]]
            for one in (made, used)
        ]

    def line_min_pin_length(self) -> Any:
        self.add_authenticator(protocol="ctap2_1", extensions=["minPinLength"])
        made = self.create_passkey(extensions={"minPinLength": True})
        return [made["extensions"], read_authenticator_data(made)["extensions"]]


def run_line(line: Callable[[], Any]) -> Any:
    """Returns the result of a line as JSON, or how the line failed."""
    try:
        return json.loads(json.dumps(line()))
    except (KeyError, IndexError, TypeError, ValueError) as error:
        return f"{type(error).__name__}: {error}"


def run_lines(url: str, page: str) -> dict[str, Any]:
    """Returns the result of each line, as JSON."""
    seen = ObservedSession(url, page)
    lines: dict[str, Callable[[], Any]] = {
        name[5:].replace("_", " "): getattr(seen, name) for name in vars(ObservedSession) if name.startswith("line_")
    }
    try:
        return {name: run_line(line) for name, line in lines.items()}
    finally:
        seen.remove_authenticator()
        seen.end_session()


def print_differences(at_driver: dict[str, Any], at_proxy: dict[str, Any]) -> bool:
    """Prints the lines that differ, with the reasons. Returns whether there is a reason for each difference."""
    different = [name for name in at_driver if at_driver[name] != at_proxy[name]]
    unexplained = [
        name for name in different if EXPECTED_DIFFERENCES.get(name, ("",))[1:] != (at_driver[name], at_proxy[name])
    ]
    for name in different:
        reason = "NO REASON" if name in unexplained else EXPECTED_DIFFERENCES[name][0]
        print(f"    {name}: {reason}: {at_driver[name]}, the proxy {at_proxy[name]}")
    gone = sorted(set(EXPECTED_DIFFERENCES) - set(different))
    ok = not unexplained and not gone and len(at_driver) >= MIN_LINES
    print(f"{'ok' if ok else 'FAILED'}  {len(different)} of {len(at_driver)} lines differ {gone or ''}")
    return ok


def check_recordings(folder: str) -> bool:
    """Checks the proxy's recordings with `hidlog check-many`. Features outside the core are not in them."""
    command = [sys.executable, "-m", "hidlog", "check-many", folder]
    ran = subprocess.run(command, capture_output=True, text=True, env=ENVIRONMENT, check=False)
    ok = ran.returncode == 0 and int(ran.stderr.split()[0]) >= MIN_LINES - 10
    print(f"{'ok' if ok else 'FAILED'}  hidlog check-many of the recordings: {ran.stderr.strip()} {ran.stdout}")
    return ok


def main() -> int:
    if not shutil.which("chromedriver"):
        print("tests/webdriver: chromedriver is missing (apt-get install chromium-driver)", file=sys.stderr)
        return 3
    with tempfile.TemporaryDirectory() as work_dir, start_server(partial(FileHandler, directory=str(HERE))) as port:
        page = f"http://localhost:{port}/page.html"
        with start_process(["chromedriver", "--log-level=OFF"], find_free_port()) as driver:
            at_driver = run_lines(driver, page)
            with start_process(make_proxy_command(driver, Path(work_dir)), find_free_port()) as proxy:
                at_proxy = run_lines(proxy, page)
        is_recorded = check_recordings(work_dir)
    if "--show" in sys.argv:
        for name, value in at_driver.items():
            print(f"    {name}: {json.dumps(value)}")
    return 0 if print_differences(at_driver, at_proxy) and is_recorded else 1


if __name__ == "__main__":
    sys.exit(main())
