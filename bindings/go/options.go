package hidlog

// #include "hidlog.h"
import "C"

import "strings"

// Verification selects how a key handles user verification.
type Verification byte

// User verification is not supported (VerificationNone), always succeeds (VerificationVerified), or always fails
// (VerificationFailed).
const (
	VerificationNone Verification = iota
	VerificationVerified
	VerificationFailed
)

// AuthenticatorOptions are properties that the verified core does not have, such as user verification. Browsers use
// them to check a page's options, and change the core's responses accordingly. The recording has the core's own
// responses, with a comment for each change, so it still passes `hidlog check`.
type AuthenticatorOptions struct {
	// Verification selects how the key handles user verification.
	Verification Verification
	// Platform, if true, makes the key a platform authenticator; otherwise it is a USB key.
	Platform bool
	// NoResidentKeys, if true, makes the key one that does not support discoverable credentials.
	NoResidentKeys bool
	// BackupEligible and BackedUp are the values of the flags BE (backup eligibility) and BS (backup state) in the
	// authenticator data of credentials that are created from now on.
	BackupEligible, BackedUp bool
	// NoAttestation, if true, replaces the self attestation of registrations with the attestation statement format
	// "none".
	NoAttestation bool
}

// clientAbilities returns the options as flags of enum hidlog_client_ability (hidlog.h).
func (o AuthenticatorOptions) clientAbilities() C.uint32_t {
	abilities := [...]C.uint32_t{0, C.HIDLOG_CLIENT_VERIFIES, C.HIDLOG_CLIENT_VERIFICATION_FAILS}[o.Verification]
	if o.Platform {
		abilities |= C.HIDLOG_CLIENT_PLATFORM
	}
	if !o.NoResidentKeys {
		abilities |= C.HIDLOG_CLIENT_RESIDENT_KEY
	}
	return abilities
}

// backupFlags returns the flags BE and BS for a new credential, as bits of the authenticator data's flags.
func (o AuthenticatorOptions) backupFlags() byte {
	flags := byte(0)
	if o.BackupEligible {
		flags |= flagBackupEligible
	}
	if o.BackedUp {
		flags |= flagBackedUp
	}
	return flags
}

// flagNames returns the names of the flags that are set, separated by commas: UV, BE and BS.
func flagNames(flags byte) string {
	var names []string
	for _, flag := range []struct {
		bit  byte
		name string
	}{{flagUserVerified, "UV"}, {flagBackupEligible, "BE"}, {flagBackedUp, "BS"}} {
		if flags&flag.bit != 0 {
			names = append(names, flag.name)
		}
	}
	return strings.Join(names, ", ")
}
