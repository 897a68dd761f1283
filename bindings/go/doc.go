// Package hidlog is a formally verified FIDO2 security key for tests, with recorded sessions that replay exactly.
//
// A Browser registers and signs in with the JSON that a page exchanges with a service:
//
//	key, err := hidlog.NewSecurityKey()
//	browser := key.Browser("https://example.com")
//	registration, err := browser.Create(creationOptions) // the service's options
//	assertion, err := browser.Get(requestOptions)
//	key.Faults.BadSignature = true
//	key.Presence = []hidlog.Presence{hidlog.PresenceDenied}
//
// An Authenticator is the verified core without private keys and without a simulated user: its caller passes in the
// host's packets, user presence, key pairs and signatures, and gets packets for the host. `hidlog check` checks its
// Recordings. Private keys are stored in clear text: use this package for tests only.
package hidlog
