package hidlog_test

import (
	"fmt"
	"strings"
	"testing"

	"cogtzil.example/hidlog"
)

// failingTest is a TestingT that stands for a failed test. It collects the cleanup functions and the logged texts.
type failingTest struct {
	cleanups []func()
	logged   []string
}

func (f *failingTest) Cleanup(cleanup func()) { f.cleanups = append(f.cleanups, cleanup) }
func (f *failingTest) Failed() bool           { return true }
func (f *failingTest) Helper()                {}
func (f *failingTest) Logf(format string, args ...any) {
	f.logged = append(f.logged, fmt.Sprintf(format, args...))
}

func TestReportDescribesCalls(t *testing.T) {
	key := newKey(t)
	browser := key.Browser(origin)
	registered, err := browser.Create(create)
	credential := parseCredential(t, registered, err)
	if _, err := browser.Get(get); err != nil {
		t.Fatal(err)
	}
	key.Presence = []hidlog.Presence{hidlog.PresenceDenied}
	if _, err := browser.Get(get); err == nil {
		t.Fatal("Get succeeded, although the user denied presence")
	}
	foreign := strings.NewReplacer("example.com", "other.example", "ann", "bob").Replace(string(create))
	if _, err := browser.Create([]byte(foreign)); err == nil {
		t.Fatal("Create succeeded, although the RP ID belongs to another domain than the origin")
	}
	key.Presence = nil
	key.Faults.BadSignature = true
	key.Faults.StaleSignCount = true
	if _, err := browser.Get(get); err != nil {
		t.Fatal(err)
	}
	key.Faults.Status = 0x27
	key.Faults.TruncateBy = 4
	id := credential.ID[:8]
	site := "https://login.example.com"
	selection := "residentKey required, userVerification absent (preferred), challenge AAECAwQF.., excludeCredentials absent"
	sent := "    options: rpId example.com, userVerification absent (preferred), challenge AAECAwQF.., allowCredentials absent"
	signed := "signed an assertion for ann at " + site + ": user not verified, counter 1, user handle YW5u, credential " + id + ".."
	want := []string{
		"created a credential for ann at " + site + ": user not verified, counter 0, discoverable, credential " + id + "..",
		"    options: rp.id example.com, user.id YW5u, " + selection,
		signed,
		sent,
		"the key refused to sign an assertion at " + site + ": NotAllowedError: the key refused: the user refused",
		sent,
		"the browser refused to create a credential for bob at " + site + ": SecurityError: ",
		"    options: rp.id other.example, user.id YW5u, " + selection,
		signed,
		sent,
		"    fault: the signature counter is 1, not 2",
		"    fault: signed with a different private key",
		"fault Status is enabled: 0x27 OPERATION_DENIED",
		"fault BadSignature is enabled",
		"fault StaleSignCount is enabled",
		"fault TruncateBy is enabled: 4",
	}
	got := strings.Split(key.Report(), "\n")
	if len(got) != len(want) {
		t.Fatalf("expected a report of %d lines, got:\n%s", len(want), strings.Join(got, "\n"))
	}
	for i, line := range want {
		if !strings.HasPrefix(got[i], line) {
			t.Errorf("expected a line of the report that begins with %q, got %q", line, got[i])
		}
	}
}

func TestReportExplainsMissingCredential(t *testing.T) {
	key := newKey(t)
	browser := key.Browser(origin)
	empty := strings.Replace(string(create), "{", `{"excludeCredentials": [], `, 1)
	for _, options := range []string{empty, string(create)} {
		if _, err := browser.Create([]byte(options)); err != nil {
			t.Fatal(err)
		}
	}
	why := ", no longer on the key (replaced by a later credential for the same user ID), credential "
	got := strings.Split(key.Report(), "\n")
	if !strings.Contains(got[0], why) || !strings.HasSuffix(got[1], ", excludeCredentials empty") {
		t.Errorf("expected a line with %q, then one that ends with \", excludeCredentials empty\", got %q", why, got[:2])
	}
	if !strings.Contains(got[2], ", discoverable, credential ") {
		t.Errorf("expected a line that describes a discoverable credential, got %q", got[2])
	}
}

func TestReportIsLoggedOnlyIfTheTestFails(t *testing.T) {
	key := newKey(t)
	failing := &failingTest{}
	key.ReportOnFailure(failing)
	if _, err := key.Browser(origin).Create(create); err != nil {
		t.Fatal(err)
	}
	for _, cleanup := range failing.cleanups {
		cleanup()
	}
	if len(failing.logged) != 1 || !strings.HasPrefix(failing.logged[0], "the security key:\ncreated a credential for ann at ") {
		t.Errorf("expected one logged report, got %q", failing.logged)
	}
}

func TestReportOfUnusedKeyIsEmpty(t *testing.T) {
	if report := newKey(t).Report(); report != "" {
		t.Errorf("expected an empty report, got %q", report)
	}
}
