// Makes the calls of navigator.credentials that tests/clients/browser_cases.py writes to standard input, with a Browser
// of the Go module, and prints the results. browser_cases.py documents the protocol.
package main

import (
	"bufio"
	"errors"
	"fmt"
	"os"
	"strings"

	"cogtzil.example/hidlog"
)

var presences = map[string]hidlog.Presence{"granted": hidlog.PresenceGranted, "denied": hidlog.PresenceDenied}

// newKey returns a key with the options whose names browser_cases.py sent.
func newKey(options []string) (*hidlog.SecurityKey, error) {
	key, err := hidlog.NewSecurityKey()
	if err != nil {
		return nil, err
	}
	for _, option := range options {
		switch option {
		case "verified":
			key.Options.Verification = hidlog.VerificationVerified
		case "failed":
			key.Options.Verification = hidlog.VerificationFailed
		case "platform":
			key.Options.Platform = true
		case "no resident keys":
			key.Options.NoResidentKeys = true
		case "backup eligible":
			key.Options.BackupEligible = true
		case "backed up":
			key.Options.BackedUp = true
		case "no attestation":
			key.Options.NoAttestation = true
		default:
			return nil, fmt.Errorf("unknown option of the key: %q", option)
		}
	}
	return key, nil
}

// makeCall calls the browser's method (create or get), and returns a line with the result.
func makeCall(browser *hidlog.Browser, method, options string) string {
	call := browser.Get
	if method == "create" {
		call = browser.Create
	}
	made, err := call([]byte(options))
	var dom *hidlog.DOMError
	switch {
	case errors.As(err, &dom):
		return "error\t" + dom.Name + "\t" + dom.Message
	case err != nil:
		return "failed\t" + err.Error()
	default:
		return "made\t" + string(made)
	}
}

func main() {
	var key *hidlog.SecurityKey
	var browser *hidlog.Browser
	lines := bufio.NewScanner(os.Stdin)
	lines.Buffer(nil, 1<<24)
	for lines.Scan() {
		words := strings.Split(lines.Text(), "\t")
		switch words[0] {
		case "key":
			var err error
			if key, err = newKey(words[1:]); err != nil {
				fmt.Println("failed\t" + err.Error())
				continue
			}
			browser = key.Browser("http://localhost:5000")
			fmt.Println("done")
		case "fail":
			key.Options.Verification = hidlog.VerificationFailed
			fmt.Println("done")
		case "recording":
			recording := key.Recordings()[0]
			fmt.Printf("done\t%x\n", recording.Log)
			key.Close()
		default:
			browser.Mediation = words[1]
			key.Presence = []hidlog.Presence{presences[words[2]]}
			fmt.Println(makeCall(browser, words[0], words[3]))
		}
	}
}
