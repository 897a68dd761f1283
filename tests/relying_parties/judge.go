// Verifies registrations and sign-ins with the Go library duo-labs/webauthn: reads a JSON array of cases from standard
// input, and prints a verdict for each: "yes" (accepted), "no: reason" (rejected), or "none: reason" (the library
// panicked).
package main

import (
	"bytes"
	"encoding/base64"
	"encoding/json"
	"fmt"
	"os"

	"github.com/duo-labs/webauthn/protocol"
	"github.com/duo-labs/webauthn/webauthn"
)

type testCase struct {
	Kind       string          `json:"kind"`
	Origin     string          `json:"origin"`
	RPID       string          `json:"rp_id"`
	Challenge  string          `json:"challenge"`
	PublicKey  string          `json:"public_key"`
	Counter    uint32          `json:"counter"`
	Credential json.RawMessage `json:"credential"`
	// The value of userVerification in the relying party's options: "required" or "discouraged".
	Verification string `json:"verification"`
}

func verifyRegistration(test testCase) error {
	parsed, err := protocol.ParseCredentialCreationResponseBody(bytes.NewReader(test.Credential))
	if err != nil {
		return err
	}
	return parsed.Verify(test.Challenge, test.Verification == "required", test.RPID, test.Origin)
}

func verifyAssertion(test testCase) error {
	parsed, err := protocol.ParseCredentialRequestResponseBody(bytes.NewReader(test.Credential))
	if err != nil {
		return err
	}
	key, err := base64.RawURLEncoding.DecodeString(test.PublicKey)
	if err != nil {
		return err
	}
	if err := parsed.Verify(test.Challenge, test.RPID, test.Origin, "", test.Verification == "required", key); err != nil {
		return err
	}
	stored := webauthn.Authenticator{SignCount: test.Counter}
	stored.UpdateCounter(parsed.Response.AuthenticatorData.Counter)
	if stored.CloneWarning {
		return fmt.Errorf("the signature counter did not increase (CloneWarning)")
	}
	return nil
}

// judge returns the library's verdict on a case, as described at the top of this file.
func judge(test testCase) (verdict string) {
	defer func() {
		if reason := recover(); reason != nil {
			verdict = fmt.Sprintf("none: panic: %v", reason)
		}
	}()
	verify := verifyAssertion
	if test.Kind == "registration" {
		verify = verifyRegistration
	}
	err := verify(test)
	if err == nil {
		return "yes"
	}
	if detailed, ok := err.(*protocol.Error); ok {
		err = fmt.Errorf("%s %s", detailed.Details, detailed.DevInfo)
	}
	return fmt.Sprintf("no: %q", err.Error())
}

func main() {
	var cases []testCase
	if err := json.NewDecoder(os.Stdin).Decode(&cases); err != nil {
		fmt.Fprintln(os.Stderr, err)
		os.Exit(2)
	}
	for _, test := range cases {
		fmt.Println(judge(test))
	}
}
