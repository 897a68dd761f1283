"""The settings of an authenticator as browsers see it: user verification, attachment, discoverable credentials, backup
flags, attestation, algorithms, extensions and autofill. All of these are outside the verified core."""

from __future__ import annotations

from collections.abc import Iterable
from typing import Any, Union
from uuid import UUID

from .credential_metadata import Backup
from .errors import ArgumentError, check_choice, describe
from .webauthn_client import AuthenticatorOptions

ES256, EDDSA, RS256 = -7, -8, -257
ALGORITHMS = (ES256, EDDSA, RS256)
EXTENSIONS = ("prf", "largeBlob", "credProtect", "credBlob", "minPinLength")
_VERIFICATIONS = ("none", "verified", "failed")
_ATTACHMENTS = ("cross-platform", "platform")
_ATTESTATIONS = ("self", "none", "basic")
_AUTOFILLS = ("selected", "automatic")
_NO_AAGUID = UUID(int=0)


def _check_list(name: str, values: Any, known: tuple[Any, ...]) -> tuple[Any, ...]:
    """Returns a list as a tuple. Each item must be a known value."""
    listed = tuple(values) if isinstance(values, Iterable) and not isinstance(values, str) else (values,)
    for value in listed:
        check_choice(name, value, known)
    return listed


class AuthenticatorSettings:
    """The settings of a key's authenticator, which SecurityKey documents."""

    def _set_up(self, **settings: Any) -> None:
        """Sets all settings."""
        for name, value in settings.items():
            setattr(self, name, value)

    @property
    def verification(self) -> str:
        """The result of user verification: "none" (unsupported), "verified" or "failed"."""
        return self._verification

    @verification.setter
    def verification(self, verification: str) -> None:
        check_choice("verification", verification, _VERIFICATIONS)
        self._verification = verification

    @property
    def has_user_verification(self) -> bool:
        """Whether user verification is supported (WebDriver's hasUserVerification)."""
        return self._verification != "none"

    @property
    def is_user_verified(self) -> bool:
        """Whether user verification succeeds (WebDriver's isUserVerified). Setting it sets `verification`."""
        return self._verification == "verified"

    @is_user_verified.setter
    def is_user_verified(self, is_verified: bool) -> None:
        check_choice("is_user_verified", is_verified, (True, False))
        self._verification = "verified" if is_verified else "failed"

    @property
    def attachment(self) -> str:
        """The authenticator attachment that browsers report: "cross-platform" (usb) or "platform" (internal)."""
        return self._attachment

    @attachment.setter
    def attachment(self, attachment: str) -> None:
        check_choice("attachment", attachment, _ATTACHMENTS)
        self._attachment = attachment

    @property
    def has_resident_key(self) -> bool:
        """Whether browsers may create discoverable credentials."""
        return self._has_resident_key

    @has_resident_key.setter
    def has_resident_key(self, has_resident_key: bool) -> None:
        check_choice("has_resident_key", has_resident_key, (True, False))
        self._has_resident_key = has_resident_key

    @property
    def default_backup_eligibility(self) -> bool:
        """The backup eligibility flag (BE) of new credentials."""
        return self._backup.eligibility

    @default_backup_eligibility.setter
    def default_backup_eligibility(self, eligibility: bool) -> None:
        check_choice("default_backup_eligibility", eligibility, (True, False))
        self._backup = Backup(eligibility, getattr(self, "_backup", Backup()).state)

    @property
    def default_backup_state(self) -> bool:
        """The backup state flag (BS) of new credentials."""
        return self._backup.state

    @default_backup_state.setter
    def default_backup_state(self, state: bool) -> None:
        check_choice("default_backup_state", state, (True, False))
        self._backup = Backup(self._backup.eligibility, state)

    @property
    def attestation(self) -> str:
        """The attestation: "self", "none", or "basic"."""
        return self._attestation

    @attestation.setter
    def attestation(self, attestation: str) -> None:
        check_choice("attestation", attestation, _ATTESTATIONS)
        self._attestation = attestation

    @property
    def aaguid(self) -> UUID:
        """The AAGUID of new credentials."""
        return self._aaguid

    @aaguid.setter
    def aaguid(self, aaguid: Union[UUID, str, None]) -> None:
        try:
            self._aaguid = _NO_AAGUID if aaguid is None else aaguid if isinstance(aaguid, UUID) else UUID(aaguid)
        except (ValueError, TypeError, AttributeError):
            raise ArgumentError(f"aaguid is {describe(aaguid)}; it must be a UUID") from None

    @property
    def algorithms(self) -> tuple[int, ...]:
        """The algorithms of credentials: ES256 (-7), EdDSA (-8) and RS256 (-257)."""
        return self._algorithms

    @algorithms.setter
    def algorithms(self, algorithms: Iterable[int]) -> None:
        listed = _check_list("an algorithm", algorithms, ALGORITHMS)
        if ES256 not in listed:
            raise ArgumentError(f"algorithms is {describe(algorithms)}; it must include {ES256} (ES256)")
        self._algorithms = listed

    @property
    def autofill(self) -> str:
        """How sign-ins with mediation "conditional" get an account: "selected" (by `select_account`) or "automatic"."""
        return self._autofill

    @autofill.setter
    def autofill(self, autofill: str) -> None:
        check_choice("autofill", autofill, _AUTOFILLS)
        self._autofill = autofill

    @property
    def extensions(self) -> tuple[str, ...]:
        """The supported extensions."""
        return self._extensions

    @extensions.setter
    def extensions(self, extensions: Iterable[str]) -> None:
        self._extensions = _check_list("an extension", extensions, EXTENSIONS)

    def supports(self, extension: str) -> bool:
        """Returns whether an extension is supported. As in Chromium, a key that supports credBlob also supports
        credProtect."""
        return extension in self._extensions or (extension == "credProtect" and "credBlob" in self._extensions)

    @property
    def is_plain(self) -> bool:
        """Whether attestation, AAGUID, algorithms and extensions are the core's."""
        is_own = self._attestation == "self" and self._algorithms == (ES256,) and not self._extensions
        return is_own and self._aaguid == _NO_AAGUID

    @property
    def authenticator_options(self) -> AuthenticatorOptions:
        """The authenticator's abilities, for the C library's WebAuthn client."""
        extensions = self.supports("credProtect"), self.supports("largeBlob")
        return AuthenticatorOptions(self._verification, self._attachment, self._has_resident_key, *extensions)
