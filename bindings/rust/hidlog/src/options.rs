//! The options of a key that the verified core does not have, such as user verification and the backup flags.
use hidlog_sys as sys;

// Flags of authenticator data (WebAuthn Level 3, section 6.1).
pub(crate) const FLAG_UV: u8 = 0x04;
const FLAG_BE: u8 = 0x08;
const FLAG_BS: u8 = 0x10;

/// How a key handles user verification.
#[derive(Clone, Copy, Debug, Default, PartialEq, Eq)]
pub enum Verification {
    /// The key does not support user verification.
    #[default]
    None,
    /// User verification always succeeds.
    Verified,
    /// User verification always fails.
    Failed,
}

/// Properties of a key that the verified core does not have, such as user verification. [`Browser`](crate::Browser)
/// uses them to check a page's options, and changes the core's responses accordingly. The recording has the core's own
/// responses, with a comment for each change, so it still passes `hidlog check`.
#[derive(Clone, Debug, Default, PartialEq, Eq)]
pub struct AuthenticatorOptions {
    /// How the key handles user verification.
    pub verification: Verification,
    /// If true, the key is a platform authenticator; otherwise it is a USB key.
    pub platform: bool,
    /// If true, the key does not support discoverable credentials.
    pub no_resident_keys: bool,
    /// The value of the flag BE (backup eligibility) for credentials that are created from now on.
    pub backup_eligible: bool,
    /// The value of the flag BS (backup state) for credentials that are created from now on.
    pub backed_up: bool,
    /// If true, the attestation statement format "none" replaces the self attestation of registrations.
    pub no_attestation: bool,
}

impl AuthenticatorOptions {
    /// Returns the options as flags of `enum hidlog_client_ability` (`hidlog.h`).
    pub(crate) fn client_abilities(&self) -> u32 {
        let verification = match self.verification {
            Verification::None => 0,
            Verification::Verified => sys::HIDLOG_CLIENT_VERIFIES,
            Verification::Failed => sys::HIDLOG_CLIENT_VERIFICATION_FAILS,
        };
        let platform = if self.platform { sys::HIDLOG_CLIENT_PLATFORM } else { 0 };
        let resident_key = if self.no_resident_keys { 0 } else { sys::HIDLOG_CLIENT_RESIDENT_KEY };
        verification | platform | resident_key
    }

    /// Returns the flags BE and BS for a new credential, as bits of the authenticator data's flags.
    pub(crate) fn backup_flags(&self) -> u8 {
        let eligible = if self.backup_eligible { FLAG_BE } else { 0 };
        eligible | if self.backed_up { FLAG_BS } else { 0 }
    }
}

/// Returns the names of the flags that are set, separated by commas: UV, BE and BS.
pub(crate) fn flag_names(flags: u8) -> String {
    let named = [(FLAG_UV, "UV"), (FLAG_BE, "BE"), (FLAG_BS, "BS")];
    let names: Vec<_> = named.iter().filter(|(bit, _)| flags & bit != 0).map(|(_, name)| *name).collect();
    names.join(", ")
}
