package hidlog

import (
	"encoding/base64"
	"encoding/binary"
	"encoding/json"
	"fmt"
	"reflect"
	"strings"
)

// maxCalls is the maximum number of calls in a report. Older calls are dropped.
const maxCalls = 40

// Flags of authenticator data (WebAuthn Level 3, section 6.1).
const (
	flagUserVerified   = 0x04
	flagBackupEligible = 0x08
	flagBackedUp       = 0x10
)

// browserCall is a call of Browser.Create or Browser.Get, and its result: the credential's JSON or an error. faults
// describes the changes that injected faults made to the response.
type browserCall struct {
	kind         ceremony
	origin       string
	options      []byte
	credential   []byte
	err          error
	isKeyRefusal bool
	faults       []string
}

// TestingT is the part of *testing.T that ReportOnFailure uses.
type TestingT interface {
	Cleanup(func())
	Failed() bool
	Helper()
	Logf(format string, args ...any)
}

// ReportOnFailure logs the key's report when the test ends, if the test failed and the report is not empty.
func (k *SecurityKey) ReportOnFailure(t TestingT) {
	t.Helper()
	t.Cleanup(func() {
		t.Helper()
		if report := k.Report(); t.Failed() && report != "" {
			t.Logf("the security key:\n%s", report)
		}
	})
}

// Report describes the last calls of Create and Get in the key's browsers, for the output of a failed test. For each
// call, it has the result (a created credential, a signed assertion, or who refused the call and why), the options, and
// the faults that changed the response. Then it lists the enabled faults. The report is empty if there were no calls
// and no fault is enabled.
func (k *SecurityKey) Report() string {
	held := map[string]Credential{}
	for _, credential := range k.Credentials() {
		held[base64.RawURLEncoding.EncodeToString(credential.ID[:])] = credential
	}
	lines := []string{}
	for i, call := range k.calls {
		lines = append(lines, k.describeCall(i, held), "    options: "+describeOptions(call.kind, call.parseOptions()))
		for _, text := range call.faults {
			lines = append(lines, "    fault: "+text)
		}
	}
	faults := reflect.ValueOf(k.Faults)
	for i := 0; i < faults.NumField(); i++ {
		value, line := faults.Field(i), fmt.Sprintf("fault %s is enabled", faults.Type().Field(i).Name)
		if value.IsZero() {
			continue
		}
		if status, is := value.Interface().(byte); is {
			line += ": " + formatStatus(status)
		} else if value.Kind() != reflect.Bool {
			line += fmt.Sprintf(": %v", value)
		}
		lines = append(lines, line)
	}
	return strings.Join(lines, "\n")
}

// formatStatus returns a CTAP status in hexadecimal, followed by its name.
func formatStatus(status byte) string {
	return strings.TrimSpace(fmt.Sprintf("0x%02X %s", status, statusNames[Status(status)]))
}

// addCall stores a call for the report, and drops the oldest call if there are more than maxCalls.
func (k *SecurityKey) addCall(call browserCall) {
	k.mutex.Lock()
	defer k.mutex.Unlock()
	k.calls = append(k.calls, call)
	if len(k.calls) > maxCalls {
		k.calls = k.calls[1:]
	}
}

// parseOptions returns the call's decoded options. If they are {"publicKey": ..}, it returns that member's value. It
// returns nil if the JSON is invalid.
func (c browserCall) parseOptions() map[string]any {
	var options map[string]any
	_ = json.Unmarshal(c.options, &options)
	if inner, is := options["publicKey"].(map[string]any); is {
		return inner
	}
	return options
}

// findOption returns the value at a path in nested objects, and whether it is present. A path is the names of members,
// separated by dots, such as "rp.id".
func findOption(options map[string]any, path string) (any, bool) {
	var value any = options
	isPresent := true
	for _, name := range strings.Split(path, ".") {
		object, _ := value.(map[string]any)
		value, isPresent = object[name]
	}
	return value, isPresent
}

// findTextOption returns the value at a path in nested objects if the value is a string, and an empty string otherwise.
func findTextOption(options map[string]any, path string) string {
	value, _ := findOption(options, path)
	text, _ := value.(string)
	return text
}

// describeCall returns the report's line about the result of the call with this index. held maps the IDs of the
// credentials on the key, in base64url, to the credentials.
func (k *SecurityKey) describeCall(index int, held map[string]Credential) string {
	c := k.calls[index]
	user := findTextOption(c.parseOptions(), "user.name")
	if c.err != nil {
		what := map[ceremony]string{createCeremony: "create a credential", getCeremony: "sign an assertion"}[c.kind]
		if user != "" {
			what += " for " + user
		}
		return fmt.Sprintf("%s to %s at %s: %v", c.describeRefusal(), what, c.origin, c.err)
	}
	made := c.parseCredential()
	if user == "" {
		user = held[made.ID].UserName
	}
	for _, other := range k.calls {
		if user == "" && other.kind == createCeremony && other.parseCredential().ID == made.ID {
			user = findTextOption(other.parseOptions(), "user.name")
		}
	}
	if user == "" {
		user = "a user without a name"
	}
	details := made.describeAuthenticatorData()
	credential, isHeld := held[made.ID]
	switch {
	case c.kind == getCeremony && made.Response.UserHandle == "":
		details = append(details, "no user handle")
	case c.kind == getCeremony:
		details = append(details, "user handle "+shortenText(made.Response.UserHandle))
	case !isHeld:
		details = append(details, k.explainMissingCredential(index))
	case credential.Discoverable:
		details = append(details, "discoverable")
	default:
		details = append(details, "not discoverable")
	}
	what := map[ceremony]string{createCeremony: "created a credential", getCeremony: "signed an assertion"}[c.kind]
	details = append(details, "credential "+shortenText(made.ID))
	return fmt.Sprintf("%s for %s at %s: %s", what, user, c.origin, strings.Join(details, ", "))
}

// describeRefusal returns who refused a failed call: "the key refused" or "the browser refused". For other errors it
// returns "failed".
func (c browserCall) describeRefusal() string {
	_, isDOMError := c.err.(*DOMError)
	switch {
	case c.isKeyRefusal:
		return "the key refused"
	case isDOMError:
		return "the browser refused"
	default:
		return "failed"
	}
}

// createdAccount returns the account of the discoverable credential that a call created, as its RP ID hash followed by
// its user ID. It returns an empty string if the call created no discoverable credential. The key keeps only one
// discoverable credential for an account.
func (c browserCall) createdAccount() string {
	options := c.parseOptions()
	isRequired, _ := findOption(options, "authenticatorSelection.requireResidentKey")
	kind := findTextOption(options, "authenticatorSelection.residentKey")
	data := c.parseCredential().authenticatorData()
	isDiscoverable := kind == "required" || kind == "preferred" || kind == "" && isRequired == true
	if c.kind != createCeremony || len(data) < 37 || !isDiscoverable {
		return ""
	}
	return string(data[:32]) + findTextOption(options, "user.id")
}

// explainMissingCredential returns why the key no longer has the credential that the call with this index created.
func (k *SecurityKey) explainMissingCredential(index int) string {
	account := k.calls[index].createdAccount()
	for _, later := range k.calls[index+1:] {
		if account != "" && later.createdAccount() == account {
			return "no longer on the key (replaced by a later credential for the same user ID)"
		}
	}
	return "no longer on the key"
}

// credentialJSON has the members of a credential's JSON that the report shows.
type credentialJSON struct {
	ID       string
	Response struct{ AuthenticatorData, UserHandle string }
}

// parseCredential returns the credential that a call returned, or an empty credential if the call failed.
func (c browserCall) parseCredential() credentialJSON {
	var made credentialJSON
	_ = json.Unmarshal(c.credential, &made)
	return made
}

// authenticatorData returns the credential's authenticator data, decoded from base64url.
func (c credentialJSON) authenticatorData() []byte {
	data, _ := base64.RawURLEncoding.DecodeString(c.Response.AuthenticatorData)
	return data
}

// describeAuthenticatorData returns descriptions of the flags and the signature counter in the authenticator data.
func (c credentialJSON) describeAuthenticatorData() []string {
	data := c.authenticatorData()
	if len(data) < 37 {
		return nil
	}
	details := []string{}
	if data[32]&flagUserVerified == 0 {
		details = append(details, "user not verified")
	}
	for _, flag := range []struct {
		bit  byte
		name string
	}{{flagUserVerified, "user verified"}, {flagBackupEligible, "backup eligible"}, {flagBackedUp, "backed up"}} {
		if data[32]&flag.bit != 0 {
			details = append(details, flag.name)
		}
	}
	return append(details, fmt.Sprintf("counter %d", binary.BigEndian.Uint32(data[33:])))
}

// reportedOptions has the paths (see findOption) of the options that the report shows for calls of Create and Get.
var reportedOptions = map[ceremony][]string{
	createCeremony: {"rp.id", "user.id", "authenticatorSelection.residentKey", "authenticatorSelection.requireResidentKey",
		"authenticatorSelection.userVerification", "authenticatorSelection.authenticatorAttachment", "attestation", "timeout",
		"challenge", "excludeCredentials"},
	getCeremony: {"rpId", "userVerification", "timeout", "challenge", "allowCredentials"},
}

// rareOptions has the names of options that the report shows only if the page passed them.
var rareOptions = map[string]bool{"requireResidentKey": true, "authenticatorAttachment": true, "attestation": true, "timeout": true}

// describeOptions returns the names and the values of the options that the report shows for a call, in one line.
func describeOptions(kind ceremony, options map[string]any) string {
	found := []string{}
	for _, path := range reportedOptions[kind] {
		name := strings.TrimPrefix(path, "authenticatorSelection.")
		value, isPresent := findOption(options, path)
		if isPresent {
			found = append(found, name+" "+describeOption(path, value))
		} else if !rareOptions[name] {
			found = append(found, name+" "+describeAbsentOption(name, options))
		}
	}
	return strings.Join(found, ", ")
}

// describeAbsentOption describes an option that the page did not pass: "absent", followed by the default value for
// residentKey and userVerification (WebAuthn Level 3, sections 5.4.4 and 5.5).
func describeAbsentOption(name string, options map[string]any) string {
	isRequired, _ := findOption(options, "authenticatorSelection.requireResidentKey")
	switch {
	case name == "residentKey" && isRequired == true:
		return "absent (required)"
	case name == "residentKey":
		return "absent (discouraged)"
	case name == "userVerification":
		return "absent (preferred)"
	default:
		return "absent"
	}
}

// describeOption returns the value of an option as text. It shortens IDs and challenges.
func describeOption(path string, value any) string {
	listed, isList := value.([]any)
	text, isText := value.(string)
	switch {
	case isText && text == "" || isList && len(listed) == 0:
		return "empty"
	case isText && (path == "user.id" || path == "challenge"):
		return shortenText(text)
	case isText:
		return text
	case isList && (path == "excludeCredentials" || path == "allowCredentials"):
		ids := []string{}
		for _, item := range listed {
			descriptor, _ := item.(map[string]any)
			ids = append(ids, shortenText(findTextOption(descriptor, "id")))
		}
		return strings.Join(ids, " ")
	default:
		shown, _ := json.Marshal(value)
		return string(shown)
	}
}

// shortenText cuts a text that is longer than eight characters to its first eight, followed by two dots.
func shortenText(text string) string {
	if len(text) <= 8 {
		return text
	}
	return text[:8] + ".."
}
