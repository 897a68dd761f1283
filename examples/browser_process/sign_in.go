// Registers and signs in with a `hidlog browser` process, and verifies the responses with duo-labs/webauthn, as a Go
// service would.
//
//	go run sign_in.go hidlog browser
package main

import (
	"bufio"
	"bytes"
	"encoding/json"
	"fmt"
	"log"
	"os"
	"os/exec"

	"github.com/duo-labs/webauthn/protocol"
)

const (
	origin    = "https://example.com"
	rpID      = "example.com"
	challenge = "AAECAwQFBgcICQoLDA0ODw"
)

type result struct {
	Value   json.RawMessage `json:"value"`
	Error   string          `json:"error"`
	Message string          `json:"message"`
}

type object map[string]any

// browser is a `hidlog browser` process.
type browser struct {
	commands *json.Encoder
	results  *bufio.Reader
}

// call sends a command to the process, and returns the command's result.
func (b browser) call(command string, argument any) (r result) {
	if err := b.commands.Encode(object{command: argument}); err != nil {
		log.Fatal(err)
	}
	line, err := b.results.ReadBytes('\n')
	if err == nil {
		err = json.Unmarshal(line, &r)
	}
	if err != nil {
		log.Fatal(err)
	}
	return r
}

// startBrowser starts the process with this command, and returns it and a function that ends it.
func startBrowser(command ...string) (browser, func()) {
	process := exec.Command(command[0], append(command[1:], "--origin", origin)...)
	in, _ := process.StdinPipe()
	out, _ := process.StdoutPipe()
	process.Stderr = os.Stderr
	if err := process.Start(); err != nil {
		log.Fatal(err)
	}
	return browser{json.NewEncoder(in), bufio.NewReader(out)}, func() { in.Close(); process.Wait() }
}

func main() {
	browser, stop := startBrowser(os.Args[1:]...)
	defer stop()
	made := browser.call("create", object{
		"rp": object{"id": rpID, "name": "Example"}, "challenge": challenge,
		"user":             object{"id": "YW5u", "name": "ann", "displayName": "Ann"},
		"pubKeyCredParams": []object{{"type": "public-key", "alg": -7}},
	})
	registration, err := protocol.ParseCredentialCreationResponseBody(bytes.NewReader(made.Value))
	if err != nil {
		log.Fatal(err)
	}
	if err := registration.Verify(challenge, false, rpID, origin); err != nil {
		log.Fatal(err)
	}
	key := registration.Response.AttestationObject.AuthData.AttData.CredentialPublicKey
	allowed := []object{{"type": "public-key", "id": registration.ID}}
	options := object{"challenge": challenge, "rpId": rpID, "allowCredentials": allowed}
	used, err := protocol.ParseCredentialRequestResponseBody(bytes.NewReader(browser.call("get", options).Value))
	if err != nil {
		log.Fatal(err)
	}
	if err := used.Verify(challenge, rpID, origin, "", false, key); err != nil {
		log.Fatal(err)
	}
	browser.call("setPresence", "denied")
	if denied := browser.call("get", options); denied.Error != "NotAllowedError" {
		log.Fatal("expected NotAllowedError, since the user denied presence, got ", denied)
	}
	fmt.Println("ok")
}
