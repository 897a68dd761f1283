package hidlog

import (
	"crypto/ecdsa"
	"crypto/elliptic"
	"crypto/rand"
	"crypto/sha256"
	"encoding/binary"
	"fmt"
)

// Browser is a simulated browser at an origin, with a security key. It registers and signs in as navigator.credentials
// does on a page.
type Browser struct {
	key    *SecurityKey
	origin string
	// Account selects the account that Get signs in with if several match: 0 is the newest, 1 the next older, and so
	// on.
	Account int
	// Mediation is the value of the option mediation of Create and Get [default: optional]. With "conditional", Get
	// does not wait for the user to select an account: it signs in with Account immediately.
	Mediation string
}

// DOMError is an exception that navigator.credentials would throw in a page. Name is, for example, NotAllowedError or
// InvalidStateError.
type DOMError struct{ Name, Message string }

// Error returns the exception's name and message.
func (e *DOMError) Error() string { return e.Name + ": " + e.Message }

// Browser returns a browser at an origin, such as https://example.com or http://localhost:5000.
func (k *SecurityKey) Browser(origin string) *Browser {
	return &Browser{key: k, origin: origin}
}

// Create registers a credential. The options are PublicKeyCredentialCreationOptionsJSON, and the result is
// RegistrationResponseJSON. An error that a page would get is a *DOMError. Create rejects the same options as Chromium,
// except that public suffixes with several labels (co.uk) are not supported.
func (b *Browser) Create(optionsJSON []byte) ([]byte, error) {
	return b.call(createCeremony, optionsJSON)
}

// Get signs in. The options are PublicKeyCredentialRequestOptionsJSON, and the result is AuthenticationResponseJSON. An
// error that a page would get is a *DOMError.
func (b *Browser) Get(optionsJSON []byte) ([]byte, error) {
	return b.call(getCeremony, optionsJSON)
}

// call makes a call of Create or Get, and adds the call and its result to the key's report.
func (b *Browser) call(kind ceremony, options []byte) ([]byte, error) {
	call := browserCall{kind: kind, origin: b.origin, options: clone(options)}
	call.credential, call.err = b.requestCredential(&call)
	b.key.addCall(call)
	return call.credential, call.err
}

// requestCredential sends a call's request to the key, and returns the credential as JSON. For the report, it sets
// call.faults and call.isKeyRefusal.
func (b *Browser) requestCredential(call *browserCall) ([]byte, error) {
	c := newClientCall(call.kind, call.options, b.origin, b.Mediation, b.key.Options)
	request, err := c.buildRequest()
	if err != nil {
		return nil, err
	}
	response, err := b.exchange(request)
	for account := 0; err == nil && response[0] == 0 && call.kind == getCeremony && account < b.Account; account++ {
		response, err = b.exchange([]byte{getNextAssertion})
	}
	if err != nil {
		return nil, err
	}
	if response[0] == 0 {
		if response, call.faults, err = b.alterResponse(c, request, response); err != nil {
			return nil, err
		}
	} else if b.key.Faults.Status != 0 {
		call.faults = []string{"the response has status " + formatStatus(b.key.Faults.Status)}
	}
	credential, err := c.buildCredential(response)
	if refused, is := err.(*DOMError); is && response[0] != 0 {
		refused.Message += b.key.causeSuffix()
		call.isKeyRefusal = true
	}
	return credential, err
}

// getNextAssertion is the command byte of authenticatorGetNextAssertion (CTAP 2.1, section 6.3).
const getNextAssertion = 0x08

// exchange sends a CTAP2 request to the key, and returns the response including its status byte.
func (b *Browser) exchange(request []byte) ([]byte, error) {
	data, err := b.key.Exchange(request)
	if status, is := err.(Status); is {
		return []byte{byte(status)}, nil
	}
	if err != nil {
		return nil, err
	}
	return append([]byte{0}, data...), nil
}

// signedResponse has the ID of the credential that signed a response, the response's authenticator data and signature,
// the clientDataHash of the request, and descriptions of the changes that injected faults made.
type signedResponse struct {
	id              CredentialID
	data, signature []byte
	clientDataHash  []byte
	faults          []string
}

// alterResponse changes a successful response as the key's options and the enabled faults require, and stores its
// signature counter for the fault StaleSignCount. It returns the changed response, and descriptions of the changes that
// faults made.
func (b *Browser) alterResponse(c *clientCall, request, response []byte) ([]byte, []string, error) {
	parameters, err := decodeMembers(request[1:])
	if err != nil {
		return nil, nil, err
	}
	members, err := decodeMembers(response[1:])
	if err != nil {
		return nil, nil, err
	}
	var signed signedResponse
	signed.data, _ = members[2].([]byte)
	if c.ceremony == createCeremony {
		statement, _ := members[3].(map[any]any)
		signed.signature, _ = statement["sig"].([]byte)
		signed.clientDataHash, _ = parameters[1].([]byte)
		if len(signed.data) < 164 {
			return nil, nil, errCBOR
		}
		signed.id = *(*CredentialID)(signed.data[55:87])
		b.key.backupFlags[signed.id] = b.key.Options.backupFlags()
	} else {
		credential, _ := members[1].(map[any]any)
		id, _ := credential["id"].([]byte)
		signed.signature, _ = members[3].([]byte)
		signed.clientDataHash, _ = parameters[2].([]byte)
		if len(id) != 32 || len(signed.data) < 37 {
			return nil, nil, errCBOR
		}
		signed.id = *(*CredentialID)(id)
	}
	flags := b.key.backupFlags[signed.id]
	if c.isVerified {
		flags |= flagUserVerified
	}
	if err := b.alterSignedResponse(&signed, flags); err != nil {
		return nil, nil, err
	}
	if flags != 0 {
		b.key.addComment("outside of the core: flags " + flagNames(flags) + ", and the signature over them")
	}
	noAttestation := c.ceremony == createCeremony && b.key.Options.NoAttestation
	if noAttestation {
		b.key.addComment("outside of the core: attestation none")
	}
	return append([]byte{0}, encode(buildResponse(c.ceremony, members, signed, noAttestation))...), signed.faults, nil
}

// decodeMembers decodes bytes that must be one CBOR map, and returns the map. It returns an error if more bytes follow.
func decodeMembers(from []byte) (map[any]any, error) {
	item, rest, err := decode(from)
	members, isMap := item.(map[any]any)
	if err != nil || !isMap || len(rest) > 0 {
		return nil, errCBOR
	}
	return members, nil
}

// buildResponse returns the CBOR map of a response, with the authenticator data and the signature of signed. members is
// the map that the key returned. If noAttestation is true, the attestation statement format is "none".
func buildResponse(kind ceremony, members map[any]any, signed signedResponse, noAttestation bool) []entry {
	if noAttestation {
		return []entry{{1, "none"}, {2, signed.data}, {3, []entry{}}}
	}
	if kind == createCeremony {
		statement := []entry{{"alg", -7}, {"sig", signed.signature}}
		return []entry{{1, "packed"}, {2, signed.data}, {3, statement}}
	}
	credential := []entry{{"id", signed.id[:]}, {"type", "public-key"}}
	found := []entry{{1, credential}, {2, signed.data}, {3, signed.signature}}
	if user, is := members[4].(map[any]any); is {
		found = append(found, entry{4, []entry{{"id", user["id"]}}})
	}
	return found
}

// alterSignedResponse sets flags in the authenticator data, and injects the enabled faults. If this changes the data,
// it signs the data again. The fault TruncateBy is injected last, after signing.
func (b *Browser) alterSignedResponse(signed *signedResponse, flags byte) error {
	faults, data := &b.key.Faults, clone(signed.data)
	data[32] |= flags
	if last, isKnown := b.key.last[signed.id]; faults.StaleSignCount && isKnown {
		raised := binary.BigEndian.Uint32(data[33:])
		signed.faults = append(signed.faults, fmt.Sprintf("the signature counter is %d, not %d", last, raised))
		binary.BigEndian.PutUint32(data[33:], last)
	}
	b.key.last[signed.id] = binary.BigEndian.Uint32(data[33:])
	if faults.WrongRPID != "" {
		other := sha256.Sum256([]byte(faults.WrongRPID))
		copy(data, other[:])
		signed.faults = append(signed.faults, fmt.Sprintf("the RP ID hash is that of %q", faults.WrongRPID))
	}
	privateKey := b.key.PrivateKey(signed.id)
	if faults.BadSignature {
		var err error
		if privateKey, err = ecdsa.GenerateKey(elliptic.P256(), rand.Reader); err != nil {
			return err
		}
		signed.faults = append(signed.faults, "signed with a different private key")
	}
	if faults.BadSignature || string(data) != string(signed.data) {
		var err error
		if signed.signature, err = sign(privateKey, append(clone(data), signed.clientDataHash...)); err != nil {
			return err
		}
	}
	if faults.TruncateBy > 0 {
		data = data[:max(0, len(data)-faults.TruncateBy)]
		signed.faults = append(signed.faults, fmt.Sprintf("the authenticator data is truncated to %d bytes", len(data)))
	}
	signed.data = data
	return nil
}

func max(one, other int) int {
	if one > other {
		return one
	}
	return other
}
