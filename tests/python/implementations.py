"""The implementations that are compared on browser_cases.json, and the results of each."""

from __future__ import annotations

import json
from collections.abc import Callable
from hashlib import sha256
from pathlib import Path
from typing import Any, Optional

from chromium import Driver

import hidlog
from hidlog import cbor
from hidlog.webauthn_json import b64url_decode, b64url_encode

Case = dict[str, Any]
Json = dict[str, Any]
# Calls create or get with options as JSON. Returns the page's response, or an object with the name of the DOM error.
Call = Callable[[str, Any, Json], Json]
TABLE = json.loads(Path(__file__).with_name("browser_cases.json").read_text(encoding="utf-8"))
CASES: dict[str, Case] = {item["name"]: item for item in TABLE["cases"]}
# The cases in which the key has features outside the core that Chromium's authenticator also has.
EXTENDED_CASES: dict[str, Case] = {item["name"]: item for item in TABLE["alike"]}
# The results of Chromium's virtual authenticator, and the different results of other implementations, with the reasons.
CHROMIUM_RESULTS: dict[str, Any] = json.loads(
    Path(__file__).with_name("browser_cases_chromium.json").read_text(encoding="utf-8")
)
DIFFERENCES: list[dict[str, Any]] = json.loads(
    Path(__file__).with_name("browser_cases_differences.json").read_text(encoding="utf-8")
)
# Milliseconds after which a call is stopped: a call of which Chromium is recorded to wait forever, and any other one.
WAIT_MS = 1500
MAX_WAIT_MS = 120_000
UV = 0x04

RUN_SCRIPT = """
const [done, call, publicKey, more, waits] = [arguments[arguments.length - 1], ...arguments];
const names = { create: "parseCreationOptionsFromJSON", get: "parseRequestOptionsFromJSON" };
const run = async () => {
    const controller = new AbortController();
    setTimeout(() => controller.abort(new DOMException("it waits", "Waits")), waits);
    const options = { publicKey: PublicKeyCredential[names[call]](publicKey), signal: controller.signal, ...more };
    return (await navigator.credentials[call](options)).toJSON();
};
run().then((json) => done({ json }), (error) => done({ error: error.name, text: error.message }));
"""
INSTALL_SCRIPT = """
const [done, options] = [arguments[arguments.length - 1], ...arguments];
hidlogKey.installedKey()?.uninstall();
hidlogKey.sendDevToolsCommand("WebAuthn.addVirtualAuthenticator", { options })
    .then(() => done(""), (error) => done(String(error)));
"""
FAIL_SCRIPT = """
const done = arguments[arguments.length - 1];
hidlogKey.sendDevToolsCommand("WebAuthn.setUserVerified", { isUserVerified: false }).then(done, done);
"""
PRESENCE_SCRIPT = "hidlogKey.installedKey().presence = arguments[0];"
REMOVE_SCRIPT = "hidlogKey.installedKey()?.uninstall();"


class ServiceError(Exception):
    """An error that a page gets, with the name of the DOM error."""

    def __init__(self, name: str, text: str = ""):
        super().__init__(f"{name}: {text}")
        self.name = name


def find_difference(name: str, implementation: str) -> Optional[Json]:
    """Returns how the result of a case differs from Chromium's, as browser_cases_differences.json has it, or None."""
    for group in DIFFERENCES:
        if name in group["results"] and implementation in group.get("implementations", [implementation]):
            found: Json = group["results"][name]
            return found
    return None


def get_wait_ms(case: Case, call: str) -> int:
    """Returns the milliseconds after which a call of a case is stopped. They are many unless the call is expected to
    wait forever, so that the result is the same on a busy machine."""
    is_endless = call == case["call"] and CHROMIUM_RESULTS.get(case["name"]) == {"error": "Waits"}
    return WAIT_MS if is_endless else MAX_WAIT_MS


def get_expected_result(name: str, implementation: str) -> Json:
    """Returns the expected result of a case. Chromium's user can't deny a request; the result of a denial is that of
    WebAuthn (section 5.1.3)."""
    recorded: Json = CHROMIUM_RESULTS.get(name, {"error": "NotAllowedError"})
    difference = find_difference(name, implementation)
    if difference and "seen" in difference and "seen" in recorded:
        return {"seen": {**recorded["seen"], **difference["seen"]}}
    return difference or recorded


def _fill_options(value: Any, ids: list[str]) -> Any:
    """Returns options in which placeholders are replaced by the IDs of earlier registrations, and long values are
    expanded."""
    if isinstance(value, dict) and "$bytes" in value:
        return b64url_encode(bytes(value["$bytes"]))
    if isinstance(value, dict) and "$repeat" in value:
        return [{"type": "public-key", "id": b64url_encode(bytes([index, 255]))} for index in range(value["$repeat"])]
    if isinstance(value, dict):
        return {_fill_options(name, ids): _fill_options(member, ids) for name, member in value.items()}
    if isinstance(value, list):
        return [_fill_options(item, ids) for item in value]
    return ids[int(value[1:])] if isinstance(value, str) and value.startswith("$") else value


def _make_options(case: Case, ids: list[str]) -> Any:
    if "raw" in case:
        return case["raw"]["publicKey"]
    base = TABLE["creation" if case["call"] == "create" else "request"]
    made = json.loads(json.dumps({**base, **_fill_options(case.get("options", {}), ids)}))
    *path, last = case.get("without", [""])
    inner = made
    for name in path:
        inner = inner[name]
    inner.pop(last, None)
    return made


def run_calls(call: Call, case: Case, fail: Callable[[], Any] = lambda: None) -> Json:
    """Makes the calls of a case, and returns the result of the last call. Before this call, `fail` makes user
    verification fail."""
    before = [{**TABLE["creation"], **element} for element in case.get("before", [])]
    try:
        ids = [call("create", item, {})["id"] for item in before]
    except (hidlog.WebAuthnError, ServiceError) as error:
        raise AssertionError(f"{case['name']}: an earlier registration of the case failed: {error}") from error
    more = {"mediation": case["mediation"]} if "mediation" in case else {}
    if "then" in case:
        fail()
    try:
        answer = call(case["call"], _make_options(case, ids), more)
    except (hidlog.WebAuthnError, ServiceError) as error:
        return {"error": error.name}
    seen = select_members(answer, ids)
    return {"seen": {**seen, **select_parts_outside_core(answer)} if case["name"] in EXTENDED_CASES else seen}


def select_members(answer: Json, ids: list[str]) -> Json:
    """Returns the members of a response that are compared: all except random members and those that only Chromium
    adds."""
    response = dict(answer["response"])
    auth_data = b64url_decode(response.pop("authenticatorData"))
    client_data = json.loads(b64url_decode(response.pop("clientDataJSON")))
    client_data.pop("other_keys_can_be_added_here", None)
    assert client_data.pop("origin").split("://")[1].startswith("localhost")
    for name in ("signature", "attestationObject", "publicKey"):
        if name in response:
            response[name] = "bytes"
    if auth_data[32] & 0x40:
        response["idBytes"] = int.from_bytes(auth_data[53:55], "big")
    shown = {**answer, "response": response, "id": ids.index(answer["id"]) if answer["id"] in ids else "new"}
    shown["rawId"] = shown["id"] if answer["rawId"] == answer["id"] else "another"
    is_own = auth_data[:32] == sha256(b"localhost").digest()
    return {**shown, "clientData": client_data, "flags": auth_data[32], "isForLocalhost": is_own}


def select_parts_outside_core(answer: Json) -> Json:
    """Returns the parts of a response that are outside the core, without random values: attestation, AAGUID and
    extensions."""
    auth_data = b64url_decode(answer["response"]["authenticatorData"])
    rest = auth_data[37:]
    seen: Json = {}
    if auth_data[32] & 0x40:
        attestation = cbor.decode(b64url_decode(answer["response"]["attestationObject"]))
        end = 18 + int.from_bytes(rest[16:18], "big")
        cose, after = cbor.decode_first(rest[end:])
        statement = {name: len(member) if name == "x5c" else "any" for name, member in attestation["attStmt"].items()}
        seen = {
            "fmt": attestation["fmt"],
            "attStmt": statement,
            "aaguid": rest[:16].hex(),
            "kty": cose[1],
            "alg": cose[3],
        }
        rest = after
    outputs: Json = cbor.decode(rest) if rest else {}
    shown = {name: value.hex() if isinstance(value, bytes) else value for name, value in outputs.items()}
    results = dict(answer["clientExtensionResults"])
    if "results" in results.get("prf", {}):
        values = results["prf"]["results"]
        is_same = len(set(values.values())) < len(values)
        lengths = {name: len(b64url_decode(value)) for name, value in values.items()}
        results["prf"] = {**results["prf"], "results": lengths, "isSame": is_same}
    return {**seen, "outputs": shown, "clientExtensionResults": results}


def run_with_package(case: Case) -> Json:
    """Runs a case with the package's browser."""
    with hidlog.SecurityKey(**case.get("key", {})) as key:
        browser = key.browser("http://localhost:5000")

        def call(name: str, options: Any, more: Json) -> Json:
            key.presence = case.get("presence", "granted") if name == case["call"] else "granted"
            wrapped = {"publicKey": options} if "raw" in case or case.get("wrapped") else options
            return json.loads(json.dumps(getattr(browser, name)(wrapped, **more)))  # type: ignore[no-any-return]

        result = run_calls(call, case, lambda: setattr(key, "verification", "failed"))
    for snapshot, log in key.recordings:
        hidlog.check(log, snapshot).raise_for_fault()
    return result


def _make_page_call(driver: Driver, case: Case) -> Call:
    def call(name: str, options: Any, more: Json) -> Json:
        answer = driver.run(RUN_SCRIPT, name, options, more, get_wait_ms(case, name), waits=True)
        if "error" in answer:
            raise ServiceError(answer["error"], answer["text"])
        made: Json = answer["json"]
        return made

    return call


def to_devtools_options(key: Json) -> Json:
    """Returns the options of a virtual authenticator that corresponds to a key."""
    verification = key.get("verification", "none")
    names = {"prf": "hasPrf", "largeBlob": "hasLargeBlob", "credBlob": "hasCredBlob", "minPinLength": "hasMinPinLength"}
    extensions: Json = {names[name]: True for name in key.get("extensions", [])}
    if extensions:
        extensions["ctap2Version"] = "ctap2_1"
    return {
        **extensions,
        "protocol": "ctap2",
        "transport": "internal" if key.get("attachment") == "platform" else "usb",
        "hasResidentKey": key.get("has_resident_key", True),
        "hasUserVerification": verification != "none",
        "isUserVerified": verification == "verified",
        "automaticPresenceSimulation": True,
        "defaultBackupEligibility": key.get("default_backup_eligibility", False),
        "defaultBackupState": key.get("default_backup_state", False),
    }


def run_with_chromium(case: Case, driver: Driver) -> Json:
    """Runs a case with Chromium's own virtual authenticator.

    Chromium creates discoverable credentials only with user verification. For a case with such credentials but without
    user verification, its authenticator verifies the user, and the flag UV is not compared.
    """
    key = case.get("key", {})
    is_masked = "esidentKey" in json.dumps(case) and "verification" not in key
    driver.run(REMOVE_SCRIPT)
    driver.send_devtools_command("WebAuthn.enable")
    options = to_devtools_options({"verification": "verified", **key} if is_masked else key)
    made = driver.send_devtools_command("WebAuthn.addVirtualAuthenticator", options=options)
    try:
        result = _run_calls_with_driver(case, driver, made)
    finally:
        driver.send_devtools_command("WebAuthn.removeVirtualAuthenticator", **made)
    if is_masked and "seen" in result:
        result["seen"]["flags"] &= ~UV
    return result


def _run_calls_with_driver(case: Case, driver: Driver, made: Json) -> Json:
    fail = {"isUserVerified": False, **made}
    return run_calls(
        _make_page_call(driver, case), case, lambda: driver.send_devtools_command("WebAuthn.setUserVerified", **fail)
    )


def run_with_page_key(case: Case, driver: Driver) -> Json:
    """Runs a case with the key in a page."""
    key = case.get("key", {})
    outside = {name: key[name] for name in ("attestation", "aaguid", "algorithms", "autofill") if name in key}
    options = {**to_devtools_options(key), **outside}
    refused = driver.run(INSTALL_SCRIPT, options, waits=True)
    assert not refused, refused
    call_page = _make_page_call(driver, case)

    def call(name: str, options: Any, more: Json) -> Json:
        driver.run(PRESENCE_SCRIPT, case.get("presence", "granted") if name == case["call"] else "granted")
        return call_page(name, options, more)

    return run_calls(call, case, lambda: driver.run(FAIL_SCRIPT, waits=True))
