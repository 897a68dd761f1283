package hidlog_test

import (
	"bytes"
	"crypto/ecdsa"
	"crypto/elliptic"
	"crypto/rand"
	"crypto/sha256"
	"crypto/x509"
	"encoding/base64"
	"encoding/binary"
	"encoding/json"
	"errors"
	"fmt"
	"os"
	"os/exec"
	"path/filepath"
	"strings"
	"sync"
	"testing"

	"cogtzil.example/hidlog"
)

const origin = "https://login.example.com"

var create = []byte(`{"rp": {"id": "example.com", "name": "Example"}, "challenge": "AAECAwQFBgcICQoLDA0ODw",
	"user": {"id": "YW5u", "name": "ann", "displayName": "Ann"},
	"pubKeyCredParams": [{"type": "public-key", "alg": -8}, {"type": "public-key", "alg": -7}],
	"authenticatorSelection": {"residentKey": "required"}}`)
var get = []byte(`{"publicKey": {"challenge": "AAECAwQFBgcICQoLDA0ODw", "rpId": "example.com"}}`)

// publicKeyCredential has the members of a credential's JSON that a relying party reads.
type publicKeyCredential struct {
	ID       string
	Response struct {
		ClientDataJSON, AuthenticatorData, Signature, PublicKey, AttestationObject, UserHandle string
	}
}

func parseCredential(t *testing.T, from []byte, err error) (credential publicKeyCredential) {
	t.Helper()
	if err == nil {
		err = json.Unmarshal(from, &credential)
	}
	if err != nil {
		t.Fatal(err)
	}
	return credential
}

func decodeBase64URL(t *testing.T, text string) []byte {
	t.Helper()
	found, err := base64.RawURLEncoding.DecodeString(text)
	if err != nil {
		t.Fatal(err)
	}
	return found
}

func newKey(t *testing.T) *hidlog.SecurityKey {
	t.Helper()
	key, err := hidlog.NewSecurityKey()
	if err != nil {
		t.Fatal(err)
	}
	t.Cleanup(func() { checkRecordings(t, key.Authenticator); key.Close() })
	return key
}

// checkRecordings runs `hidlog check` on each of the key's recordings, if the program hidlog exists.
func checkRecordings(t *testing.T, key *hidlog.Authenticator) {
	t.Helper()
	program := os.Getenv("HIDLOG_PROGRAM")
	if program == "" {
		program = "../../release/hidlog"
	}
	if _, err := os.Stat(program); err != nil {
		t.Logf("the recordings are not checked, since the program hidlog does not exist: %v", err)
		return
	}
	for _, recording := range key.Recordings() {
		args := []string{"check"}
		if len(recording.Snapshot) > 0 {
			path := filepath.Join(t.TempDir(), "snapshot")
			if err := os.WriteFile(path, recording.Snapshot, 0o600); err != nil {
				t.Fatal(err)
			}
			args = append(args, "--load", path)
		}
		command := exec.Command(program, args...)
		command.Stdin = bytes.NewReader(recording.Log)
		if output, err := command.CombinedOutput(); err != nil || !bytes.HasPrefix(output, []byte("same ")) {
			t.Errorf("expected `hidlog check` to succeed, got %v and the output %s", err, output)
		}
	}
}

// hasValidSignature returns whether the assertion's signature is valid for the public key of the registration.
func hasValidSignature(t *testing.T, registration, assertion publicKeyCredential) bool {
	t.Helper()
	public, err := x509.ParsePKIXPublicKey(decodeBase64URL(t, registration.Response.PublicKey))
	if err != nil {
		t.Fatal(err)
	}
	hash := sha256.Sum256(decodeBase64URL(t, assertion.Response.ClientDataJSON))
	digest := sha256.Sum256(append(decodeBase64URL(t, assertion.Response.AuthenticatorData), hash[:]...))
	return ecdsa.VerifyASN1(public.(*ecdsa.PublicKey), digest[:], decodeBase64URL(t, assertion.Response.Signature))
}

func signCount(t *testing.T, assertion publicKeyCredential) uint32 {
	t.Helper()
	return binary.BigEndian.Uint32(decodeBase64URL(t, assertion.Response.AuthenticatorData)[33:])
}

func TestRegisterAndSignIn(t *testing.T) {
	key := newKey(t)
	browser := key.Browser(origin)
	made, err := browser.Create(create)
	registered := parseCredential(t, made, err)
	rp := sha256.Sum256([]byte("example.com"))
	if data := decodeBase64URL(t, registered.Response.AuthenticatorData); !bytes.Equal(data[:32], rp[:]) || data[32] != 0x41 {
		t.Fatalf("expected the RP ID hash of example.com and the flags 0x41, got the authenticator data %x", data)
	}
	// The attestation object is CBOR: {"fmt": "packed", "attStmt": {"alg": -7, "sig": ..}, ..}. After this prefix, it
	// has the length of sig in one byte, and sig: a signature over the authenticator data and clientDataHash.
	prefix := []byte("\xa3\x63fmt\x66packed\x67attStmt\xa2\x63alg\x26\x63sig\x58")
	attestation := decodeBase64URL(t, registered.Response.AttestationObject)
	if !bytes.HasPrefix(attestation, prefix) {
		t.Fatalf("expected a packed self attestation with ES256, got the attestation object %x", attestation)
	}
	rest := attestation[len(prefix):]
	signed := registered
	signed.Response.Signature = base64.RawURLEncoding.EncodeToString(rest[1 : 1+rest[0]])
	if !hasValidSignature(t, registered, signed) {
		t.Fatal("the signature in the self attestation is invalid")
	}
	for expected := uint32(1); expected < 4; expected++ {
		used, err := browser.Get(get)
		signedIn := parseCredential(t, used, err)
		if signedIn.ID != registered.ID || signedIn.Response.UserHandle != "YW5u" {
			t.Fatalf("expected the registered credential and the user handle YW5u, got %s", used)
		}
		if !hasValidSignature(t, registered, signedIn) || signCount(t, signedIn) != expected {
			t.Fatalf("expected a valid signature and the signature counter %d, got %s", expected, used)
		}
		var data struct{ Type, Challenge, Origin string }
		if err := json.Unmarshal(decodeBase64URL(t, signedIn.Response.ClientDataJSON), &data); err != nil {
			t.Fatal(err)
		}
		if data.Type != "webauthn.get" || data.Challenge != "AAECAwQFBgcICQoLDA0ODw" || data.Origin != origin {
			t.Fatal(data)
		}
	}
}

// TestAuthenticatorOptions tests features that the verified core does not have: the flags UV, BE and BS, attestation
// "none", and mediation.
func TestAuthenticatorOptions(t *testing.T) {
	key := newKey(t)
	browser := key.Browser(origin)
	key.Options = hidlog.AuthenticatorOptions{
		Verification: hidlog.VerificationVerified, BackupEligible: true, BackedUp: true, NoAttestation: true,
	}
	made, err := browser.Create(create)
	registered := parseCredential(t, made, err)
	attestation := decodeBase64URL(t, registered.Response.AttestationObject)
	if !bytes.HasPrefix(attestation, []byte("\xa3\x63fmt\x64none\x67attStmt\xa0\x68authData")) {
		t.Fatalf("expected the attestation statement format none, got the attestation object %x", attestation)
	}
	// The credential keeps the flags BE and BS that it was created with, even if the options change.
	key.Options = hidlog.AuthenticatorOptions{Verification: hidlog.VerificationVerified}
	browser.Mediation = "conditional"
	used, err := browser.Get(get)
	signedIn := parseCredential(t, used, err)
	for flags, credential := range map[byte]publicKeyCredential{0x5d: registered, 0x1d: signedIn} {
		if data := decodeBase64URL(t, credential.Response.AuthenticatorData); data[32] != flags {
			t.Fatalf("expected authenticator data with the flags %02x, got %02x", flags, data[32])
		}
	}
	if !hasValidSignature(t, registered, signedIn) {
		t.Fatal("the signature over the authenticator data with changed flags is invalid")
	}
	log := key.Recordings()[0].Log
	for text, count := range map[string]int{"flags UV, BE, BS, and the signature over them": 2, "attestation none": 1} {
		if found := bytes.Count(log, []byte("\n# outside of the core: "+text+"\n")); found != count {
			t.Fatalf("expected %d comments %q in the recording, got %d", count, text, found)
		}
	}
	for _, test := range []struct {
		options   hidlog.AuthenticatorOptions
		mediation string
		name      string
	}{
		{hidlog.AuthenticatorOptions{Verification: hidlog.VerificationFailed}, "", "NotAllowedError"},
		{hidlog.AuthenticatorOptions{}, "", "NotAllowedError"},
		{hidlog.AuthenticatorOptions{Verification: hidlog.VerificationVerified}, "now", "TypeError"},
	} {
		key.Options, browser.Mediation = test.options, test.mediation
		options := []byte(`{"challenge": "AA", "rpId": "example.com", "userVerification": "required"}`)
		if _, err := browser.Get(options); !isDOMError(err, test.name) {
			t.Fatal(test, err)
		}
	}
}

func TestPresenceSequence(t *testing.T) {
	key := newKey(t)
	browser := key.Browser(origin)
	key.Presence = []hidlog.Presence{hidlog.PresenceDenied, hidlog.PresenceTimedOut, hidlog.PresenceGranted}
	for _, isAccepted := range []bool{false, false, true, true} {
		if _, err := browser.Create(create); (err == nil) != isAccepted || err != nil && !isDOMError(err, "NotAllowedError") {
			t.Fatal(isAccepted, err)
		}
	}
}

func isDOMError(err error, name string) bool {
	var found *hidlog.DOMError
	return errors.As(err, &found) && found.Name == name
}

func TestInvalidCallsAreRejected(t *testing.T) {
	key := newKey(t)
	browser := key.Browser(origin)
	used, err := browser.Create(create)
	made := parseCredential(t, used, err)
	// options returns registration options as JSON. rpMembers is inserted before the other member of rp, userID is in
	// base64url, and moreMembers is appended to the members of the options.
	options := func(rpMembers, userID, moreMembers string) string {
		return fmt.Sprintf(`{"rp": {%s"name": "Example"}, "challenge": "AAECAwQFBgcICQoLDA0ODw",
			"user": {"id": "%s", "name": "a", "displayName": "A"}, "pubKeyCredParams": [{"type": "public-key", "alg": -7}]%s}`,
			rpMembers, userID, moreMembers)
	}
	excluded := options(`"id": "example.com", `, "AA",
		fmt.Sprintf(`, "excludeCredentials": [{"type": "public-key", "id": "%s"}]`, made.ID))
	for _, test := range []struct {
		origin, options, name string
		isGet                 bool
	}{
		{origin, excluded, "InvalidStateError", false},
		{origin, options(`"id": "example.org", `, "AA", ""), "SecurityError", false},
		{origin, options(`"id": "com", `, "AA", ""), "SecurityError", false},
		{"http://example.com", options("", "AA", ""), "SecurityError", false},
		{"https://127.0.0.1", options("", "AA", ""), "SecurityError", false},
		// Options without required members, and options that are not valid JSON.
		{origin, `{"challenge": "AAECAwQFBgcICQoLDA0ODw"}`, "TypeError", false},
		{origin, `{"rp": {"id": "example.com"}, "challenge": "AA", "user": {"id": "AA", "name": "a"}}`, "TypeError", false},
		{origin, `{"rp": {"id": "example.com"}, "user": {"id": "AA"}}`, "TypeError", false},
		{origin, `{"rp": `, "TypeError", false},
		{origin, `{"rp": {"name": "E"}, "challenge": "AA", "user": {"id": "AA", "name": "a", "displayName": "A"},
			"pubKeyCredParams": [{"type": "public-key", "alg": -99}]}`, "NotAllowedError", false},
		{origin, `{"challenge": "AA", "rpId": "example.com", "userVerification": "required"}`, "NotAllowedError", true},
		{origin, `{"challenge": "AA", "rpId": "login.example.com"}`, "NotAllowedError", true},
	} {
		browser, call := key.Browser(test.origin), (*hidlog.Browser).Create
		if test.isGet {
			call = (*hidlog.Browser).Get
		}
		if _, err := call(browser, []byte(test.options)); !isDOMError(err, test.name) {
			t.Errorf("expected %s for the options %s, got %v", test.name, test.options, err)
		}
	}
}

func TestInjectedFaults(t *testing.T) {
	key := newKey(t)
	browser := key.Browser(origin)
	text, err := browser.Create(create)
	made := parseCredential(t, text, err)
	signIn := func() publicKeyCredential {
		text, err := browser.Get(get)
		return parseCredential(t, text, err)
	}
	before := signCount(t, signIn())
	key.Faults = hidlog.Faults{StaleSignCount: true}
	if used := signIn(); signCount(t, used) != before || !hasValidSignature(t, made, used) {
		t.Fatal("StaleSignCount: expected the previous response's signature counter and a valid signature")
	}
	key.Faults = hidlog.Faults{BadSignature: true}
	if hasValidSignature(t, made, signIn()) {
		t.Fatal("BadSignature: expected an invalid signature, got a valid one")
	}
	key.Faults = hidlog.Faults{WrongRPID: "example.org"}
	rp, used := sha256.Sum256([]byte("example.org")), signIn()
	if !bytes.HasPrefix(decodeBase64URL(t, used.Response.AuthenticatorData), rp[:]) || !hasValidSignature(t, made, used) {
		t.Fatal("WrongRPID: expected the RP ID hash of example.org and a valid signature")
	}
	key.Faults = hidlog.Faults{TruncateBy: 4}
	if used := signIn(); len(decodeBase64URL(t, used.Response.AuthenticatorData)) != 33 {
		t.Fatal("TruncateBy: expected 33 bytes of authenticator data")
	}
	key.Faults = hidlog.Faults{Status: 0x30}
	if _, err := browser.Get(get); !isDOMError(err, "NotAllowedError") {
		t.Fatal(err)
	}
	key.Faults = hidlog.Faults{}
	if used := signIn(); !hasValidSignature(t, made, used) || signCount(t, used) < before+5 {
		t.Fatalf("no faults enabled: expected a valid signature and a signature counter of at least %d", before+5)
	}
}

func TestAddAndRemoveCredentials(t *testing.T) {
	key := newKey(t)
	pair, err := ecdsa.GenerateKey(elliptic.P256(), rand.Reader)
	if err != nil {
		t.Fatal(err)
	}
	rp := sha256.Sum256([]byte("example.com"))
	bob := hidlog.Credential{RPIDHash: rp, ID: hidlog.CredentialID{7}, UserID: []byte("bob"), UserName: "Bob",
		Discoverable: true, SignCount: 41}
	if err := key.AddWithPrivateKey(bob, pair); err != nil {
		t.Fatal(err)
	}
	text, err := key.Browser(origin).Get(get)
	if used := parseCredential(t, text, err); signCount(t, used) != 42 || string(decodeBase64URL(t, used.Response.UserHandle)) != "bob" {
		t.Fatal(string(text))
	}
	carol := hidlog.Credential{RPIDHash: rp, ID: hidlog.CredentialID{6}, UserID: []byte("carol")}
	if err := key.Add(carol); err != nil {
		t.Fatal(err)
	}
	if text, err = key.Browser(origin).Get(get); err != nil {
		t.Fatalf("Get failed after Add had power-cycled the key: %v", err)
	}
	if used := parseCredential(t, text, err); signCount(t, used) != 43 {
		t.Fatal(string(text))
	}
	if err := key.Remove(carol.ID); err != nil {
		t.Fatal(err)
	}
	credentials := key.Credentials()
	if len(credentials) != 1 || credentials[0].UserName != "Bob" || credentials[0].SignCount != 43 ||
		string(credentials[0].UserID) != "bob" {
		t.Fatal(credentials)
	}
	snapshot, err := key.Snapshot()
	if err != nil {
		t.Fatal(err)
	}
	again, err := hidlog.NewAuthenticator(snapshot)
	if err != nil || len(again.Credentials()) != 1 {
		t.Fatal(err)
	}
	again.Close()
	if _, err := again.Tick(1); err != hidlog.ErrClosed || again.Add(bob) != hidlog.ErrClosed || again.Need().Kind != 0 {
		t.Fatal("expected ErrClosed from Tick and Add, and no need, after Close")
	}
	second := hidlog.Credential{ID: hidlog.CredentialID{8}, RPIDHash: rp, UserID: []byte("bob"), Discoverable: true}
	if err := key.Add(second); err == nil {
		t.Fatal("Add succeeded for a second discoverable credential with the same user handle and RP ID")
	}
	if err := key.Add(hidlog.Credential{UserID: make([]byte, 65)}); err == nil {
		t.Fatal("Add succeeded with a user handle of 65 bytes")
	}
	if err := key.Remove(hidlog.CredentialID{9}); err == nil {
		t.Fatal("Remove succeeded for a credential that is not on the key")
	}
	if err := key.Clear(); err != nil || len(key.Credentials()) != 0 || len(key.Recordings()) != 5 {
		t.Fatal(err)
	}
	if _, err := hidlog.NewAuthenticator([]byte{1}); err == nil {
		t.Fatal("NewAuthenticator succeeded with an invalid snapshot")
	}
}

func TestBrowserSelectsAccount(t *testing.T) {
	key := newKey(t)
	browser := key.Browser(origin)
	for _, user := range []string{"YQ", "Yg", "Yw"} {
		text := bytes.Replace(create, []byte("YW5u"), []byte(user), 1)
		if _, err := browser.Create(text); err != nil {
			t.Fatal(err)
		}
	}
	for account, user := range []string{"Yw", "Yg", "YQ"} {
		browser.Account = account
		text, err := browser.Get(get)
		if used := parseCredential(t, text, err); used.Response.UserHandle != user {
			t.Fatal(account, used)
		}
	}
	browser.Account = 3
	if _, err := browser.Get(get); !isDOMError(err, "NotAllowedError") {
		t.Fatal(err)
	}
}

// TestErrorsEndWithCauses tests that a browser's error ends with the key's cause if the key rejected the request, and
// has no cause if a status was injected.
func TestErrorsEndWithCauses(t *testing.T) {
	key := newKey(t)
	browser := key.Browser(origin)
	expectCause := func(call func([]byte) ([]byte, error), options []byte, cause string) {
		t.Helper()
		_, err := call(options)
		if !isDOMError(err, "NotAllowedError") || !strings.HasSuffix(err.Error(), ": "+cause) || key.Cause() != cause {
			t.Fatalf("expected NotAllowedError with the cause %q, got %v and the cause %q", cause, err, key.Cause())
		}
	}
	expectCause(browser.Get, get, "no discoverable credential of this RP on this key")
	key.Presence = []hidlog.Presence{hidlog.PresenceDenied}
	expectCause(browser.Create, create, "the user refused")
	key.Presence = []hidlog.Presence{hidlog.PresenceGranted}
	if _, err := browser.Create(create); err != nil || key.Cause() != "" {
		t.Fatal(err, key.Cause())
	}
	key.Faults = hidlog.Faults{Status: 0x30}
	key.Presence = []hidlog.Presence{hidlog.PresenceDenied}
	if _, err := browser.Get(get); !isDOMError(err, "NotAllowedError") || strings.Contains(err.Error(), "the user") {
		t.Fatal(err)
	}
}

// TestAuthenticatorWithoutUser passes packets, times and user presence to an Authenticator, without a simulated user.
func TestAuthenticatorWithoutUser(t *testing.T) {
	key, err := hidlog.NewAuthenticator(nil)
	if err != nil {
		t.Fatal(err)
	}
	// The request is INIT on the broadcast channel, with a nonce. The response has the nonce, a new channel ID,
	// versions and capabilities (CTAP 2.1, section 11.2.9.1.3).
	packet := hidlog.Packet{0xff, 0xff, 0xff, 0xff, 0x86, 0, 8, 1, 2, 3, 4, 5, 6, 7, 8}
	sent, err := key.HandlePacket(0, packet)
	expected := hidlog.Packet{0xff, 0xff, 0xff, 0xff, 0x86, 0, 17, 1, 2, 3, 4, 5, 6, 7, 8, 0, 0, 0, 1, 2, 1, 0, 0, 0x0c}
	if err != nil || len(sent) != 1 || sent[0] != expected {
		t.Fatal(err, sent)
	}
	// On the request authenticatorSelection, the authenticator sends KEEPALIVEs while it waits for user presence, and
	// then status 0x27 (OPERATION_DENIED), since the user refuses.
	selection := hidlog.Packet{0, 0, 0, 1, 0x90, 0, 1, 0x0b}
	if _, err = key.HandlePacket(10, selection); err != nil || key.Need().Kind != hidlog.NeedPresence {
		t.Fatal(err, key.Need())
	}
	if sent, err = key.Tick(200); err != nil || len(sent) != 1 || sent[0][4] != 0xbb || sent[0][7] != 2 {
		t.Fatal(err, sent)
	}
	if sent, err = key.ProvidePresence(250, hidlog.PresenceDenied); err != nil || len(sent) != 1 || sent[0][7] != 0x27 {
		t.Fatal(err, sent)
	}
	if _, err = key.ProvidePresence(300, 3); err == nil {
		t.Fatal("ProvidePresence succeeded with the invalid presence 3")
	}
	if _, err = key.ProvideSignature(300, make([]byte, 73)); err == nil {
		t.Fatal("ProvideSignature succeeded with 73 bytes; the maximum is 72")
	}
	if _, err = key.Reject(300, hidlog.NeedPresence); err == nil {
		t.Fatal("Reject succeeded with NeedPresence, which it does not support")
	}
	checkRecordings(t, key)
}

func TestKeysInManyGoroutines(t *testing.T) {
	var group sync.WaitGroup
	for count := 0; count < 8; count++ {
		group.Add(1)
		go func() {
			defer group.Done()
			key, err := hidlog.NewSecurityKey()
			if err != nil {
				t.Error(err)
				return
			}
			browser := key.Browser(origin)
			for again := 0; again < 10 && err == nil; again++ {
				if _, err = browser.Create(create); err == nil {
					_, err = browser.Get(get)
				}
			}
			if err != nil {
				t.Error(err)
			}
		}()
	}
	group.Wait()
}
