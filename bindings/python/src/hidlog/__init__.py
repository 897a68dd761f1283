"""A formally verified FIDO2 security key in software, for tests of sign-in services and FIDO clients.

    from hidlog import SecurityKey

    with SecurityKey() as key:
        browser = key.browser("https://example.com")
        response = browser.create(options)      # JSON from your service, and JSON for your service

The functions on logs (replay, check, quiet, live, show) have no dependencies; a key needs the package cryptography.
"""

TYPE_CHECKING = False
if TYPE_CHECKING:  # modules are imported on first use, to keep `import hidlog` fast
    from typing import Any

    from .browser import Browser
    from .client import Client
    from .credentials import Credential
    from .key import SecurityKey
    from .session import Recording
    from .errors import (
        ArgumentError,
        ArgumentTypeError,
        CtapError,
        HidlogError,
        InvalidChannelError,
        KeyBusyError,
        KeyClosedError,
        KeyForkedError,
        KeyTimeoutError,
        LogError,
        MissingDependencyError,
        PresenceExhaustedError,
        ReplayMismatchError,
        SnapshotError,
        UnknownNameError,
    )
    from .batch_check import CheckResult, check_many
    from .logs import LogResult, check, live, quiet, replay, show
    from .signature_checks import SignatureCheck, verify_signatures
    from .webauthn_errors import (
        AbortError,
        EncodingError,
        InvalidStateError,
        NotAllowedError,
        NotSupportedError,
        SecurityError,
        WebAuthnError,
        WebAuthnRangeError,
        WebAuthnSyntaxError,
        WebAuthnTypeError,
    )

    __version__: str

__all__ = [
    "AbortError",
    "ArgumentError",
    "ArgumentTypeError",
    "Browser",
    "CheckResult",
    "Client",
    "Credential",
    "CtapError",
    "EncodingError",
    "HidlogError",
    "InvalidChannelError",
    "InvalidStateError",
    "KeyBusyError",
    "KeyClosedError",
    "KeyForkedError",
    "KeyTimeoutError",
    "LogError",
    "LogResult",
    "MissingDependencyError",
    "NotAllowedError",
    "NotSupportedError",
    "PresenceExhaustedError",
    "Recording",
    "ReplayMismatchError",
    "SecurityError",
    "SecurityKey",
    "SignatureCheck",
    "SnapshotError",
    "UnknownNameError",
    "WebAuthnError",
    "WebAuthnRangeError",
    "WebAuthnSyntaxError",
    "WebAuthnTypeError",
    "check",
    "check_many",
    "live",
    "quiet",
    "replay",
    "show",
    "verify_signatures",
]
# Exported names by module.
_MODULES = {
    "browser": ("Browser",),
    "client": ("Client",),
    "credentials": ("Credential",),
    "errors": (
        "ArgumentError",
        "ArgumentTypeError",
        "CtapError",
        "HidlogError",
        "InvalidChannelError",
        "KeyBusyError",
        "KeyClosedError",
        "KeyForkedError",
        "KeyTimeoutError",
        "LogError",
        "MissingDependencyError",
        "PresenceExhaustedError",
        "ReplayMismatchError",
        "SnapshotError",
        "UnknownNameError",
    ),
    "key": ("SecurityKey",),
    "batch_check": ("CheckResult", "check_many"),
    "signature_checks": ("SignatureCheck", "verify_signatures"),
    "logs": ("LogResult", "check", "live", "quiet", "replay", "show"),
    "session": ("Recording",),
    "webauthn_errors": (
        "AbortError",
        "EncodingError",
        "InvalidStateError",
        "NotAllowedError",
        "NotSupportedError",
        "SecurityError",
        "WebAuthnError",
        "WebAuthnRangeError",
        "WebAuthnSyntaxError",
        "WebAuthnTypeError",
    ),
}
_MODULE_OF = {name: module for module, names in _MODULES.items() for name in names}
# Old names, up to version 0.2. They work for one version, with a DeprecationWarning.
_RENAMED = {
    "Checked": "CheckResult",
    "KeyBusy": "KeyBusyError",
    "KeyEnded": "KeyClosedError",
    "KeyForked": "KeyForkedError",
    "KeyLost": "InvalidChannelError",
    "MissingPart": "MissingDependencyError",
    "NoAnswer": "KeyTimeoutError",
    "ReplayDiffers": "ReplayMismatchError",
    "Result": "LogResult",
    "ScriptEnded": "PresenceExhaustedError",
    "Signature": "SignatureCheck",
    "UnknownName": "UnknownNameError",
    "signatures": "verify_signatures",
}


def __getattr__(name: str) -> "Any":
    """Imports and returns an exported name, or returns the version."""
    from importlib import import_module

    if name in _RENAMED:
        import warnings

        new = _RENAMED[name]
        warnings.warn(f"hidlog.{name} is now hidlog.{new}", DeprecationWarning, stacklevel=2)
        return globals().get(new) or __getattr__(new)
    if name in ("__version__", "version"):
        function = import_module(".version", __name__).version
        globals()["version"] = function  # the name must refer to the function, not to the submodule
        value: "Any" = function() if name == "__version__" else function
    elif name in _MODULE_OF:
        value = getattr(import_module(f".{_MODULE_OF[name]}", __name__), name)
    elif name in (*_MODULES, "core"):
        value = import_module(f".{name}", __name__)
    else:
        raise AttributeError(f"module 'hidlog' has no attribute {name!r}")
    globals()[name] = value
    return value


def __dir__() -> "list[str]":
    """Returns all names, including those not imported yet."""
    return sorted({*globals(), *__all__, "__version__"})
