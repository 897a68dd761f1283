package hidlog

import (
	"crypto/ecdsa"
	"crypto/elliptic"
	"crypto/rand"
	"crypto/sha256"
	"encoding/binary"
	"errors"
	"fmt"
	"strings"
	"sync"
	"time"
)

// CTAPHID commands as an initialization packet has them: with bit 7 set (CTAP 2.1, section 11.2.4).
const (
	commandInit      = 0x80 | hidINIT
	commandCBOR      = 0x80 | hidCBOR
	commandKeepalive = 0x80 | hidKEEPALIVE
	commandError     = 0x80 | hidERROR
)

// Faults selects errors to inject into the key's responses, to test how a relying party handles invalid responses. They
// are injected after the authenticator has responded, so its recordings still pass `hidlog check`.
type Faults struct {
	// Status, if not 0, replaces the CTAP status of every response.
	Status byte
	// BadSignature, if true, makes signatures invalid: they are made with a different private key.
	BadSignature bool
	// StaleSignCount, if true, keeps the signature counter at its value in the credential's previous response. The
	// signature is valid.
	StaleSignCount bool
	// WrongRPID, if not empty, is another RP ID, whose hash replaces the RP ID hash in the authenticator data. The
	// signature is valid.
	WrongRPID string
	// TruncateBy is the number of bytes to remove from the end of the authenticator data after signing.
	TruncateBy int
}

// SecurityKey is an authenticator with private keys and a simulated user. Send requests to it with Exchange, or with a
// Browser. Use the key and its browsers from one goroutine at a time: only the methods of the embedded Authenticator
// may be called from several goroutines.
type SecurityKey struct {
	*Authenticator
	// Presence is what the user does each time the key asks for a touch, in order; the last element is repeated. If
	// Presence is empty, the user always touches the key.
	Presence []Presence
	// Faults are the faults to inject.
	Faults Faults
	// Options are properties that the verified core does not have, such as user verification.
	Options AuthenticatorOptions

	mutex       sync.Mutex // held during Exchange and addCall
	poweredUp   time.Time
	privateKeys map[CredentialID]*ecdsa.PrivateKey
	channel     [4]byte                 // 0 if none is allocated; a power cycle frees channels
	last        map[CredentialID]uint32 // signature counter of each credential's previous response
	backupFlags map[CredentialID]byte   // flags BE and BS of credentials that browsers created
	calls       []browserCall           // the last calls of browsers
}

// Status is the CTAP2 status code with which a key rejected a request.
type Status byte

// Error returns a message with the status code and the code's name.
func (s Status) Error() string {
	return strings.TrimSpace(fmt.Sprintf("hidlog: the key returned status %02x %s", byte(s), statusNames[s]))
}

// NewSecurityKey returns a key without credentials.
func NewSecurityKey() (*SecurityKey, error) {
	authenticator, err := NewAuthenticator(nil)
	if err != nil {
		return nil, err
	}
	return &SecurityKey{
		Authenticator: authenticator,
		poweredUp:     time.Now(),
		privateKeys:   map[CredentialID]*ecdsa.PrivateKey{},
		last:          map[CredentialID]uint32{},
		backupFlags:   map[CredentialID]byte{},
	}, nil
}

// nowMs returns the time since the key's power-up in milliseconds.
func (k *SecurityKey) nowMs() uint64 {
	return uint64(time.Since(k.poweredUp).Milliseconds())
}

// PrivateKey returns the private key of the credential with this ID, or nil.
func (k *SecurityKey) PrivateKey(id CredentialID) *ecdsa.PrivateKey {
	return k.privateKeys[id]
}

// AddWithPrivateKey adds a credential with its private key. The credential's X and Y are set to the coordinates of the
// public key.
func (k *SecurityKey) AddWithPrivateKey(credential Credential, privateKey *ecdsa.PrivateKey) error {
	if privateKey == nil || privateKey.Curve != elliptic.P256() {
		return errors.New("hidlog: the private key must be an ECDSA key on P-256")
	}
	privateKey.X.FillBytes(credential.X[:])
	privateKey.Y.FillBytes(credential.Y[:])
	if err := k.Add(credential); err != nil {
		return err
	}
	k.privateKeys[credential.ID] = privateKey
	return nil
}

// Add adds a credential, or replaces the one with the same ID. If the key has no private key for this ID, it cannot
// sign with the credential; use AddWithPrivateKey.
func (k *SecurityKey) Add(credential Credential) error {
	k.channel = [4]byte{}
	return k.Authenticator.Add(credential)
}

// Remove removes the credential with this ID.
func (k *SecurityKey) Remove(id CredentialID) error {
	k.channel = [4]byte{}
	return k.Authenticator.Remove(id)
}

// Clear removes all credentials.
func (k *SecurityKey) Clear() error {
	k.channel = [4]byte{}
	return k.Authenticator.Clear()
}

// nextPresence returns what the user does at the next request for user presence.
func (k *SecurityKey) nextPresence() Presence {
	if len(k.Presence) == 0 {
		return PresenceGranted
	}
	next := k.Presence[0]
	if len(k.Presence) > 1 {
		k.Presence = k.Presence[1:]
	}
	return next
}

func (k *SecurityKey) provideKeyPair() ([]Packet, error) {
	var id CredentialID
	privateKey, err := ecdsa.GenerateKey(elliptic.P256(), rand.Reader)
	if err == nil {
		_, err = rand.Read(id[:])
	}
	if err != nil {
		return nil, err
	}
	var x, y [32]byte
	privateKey.X.FillBytes(x[:])
	privateKey.Y.FillBytes(y[:])
	k.privateKeys[id] = privateKey
	return k.ProvideKeyPair(k.nowMs(), id, x, y)
}

func (k *SecurityKey) provideSignature(need Need) ([]Packet, error) {
	privateKey := k.privateKeys[need.ID]
	if privateKey == nil {
		return k.Reject(k.nowMs(), NeedSignature)
	}
	signature, err := sign(privateKey, need.ToSign)
	if err != nil {
		return nil, err
	}
	return k.ProvideSignature(k.nowMs(), signature)
}

func sign(privateKey *ecdsa.PrivateKey, toSign []byte) ([]byte, error) {
	digest := sha256.Sum256(toSign)
	return ecdsa.SignASN1(rand.Reader, privateKey, digest[:])
}

// provideNeeds gives the authenticator what it needs until it needs nothing more, and returns all packets that the
// authenticator sent. The parameters are the results of the input before: the packets already sent, and an error that
// provideNeeds returns at once if it is not nil.
func (k *SecurityKey) provideNeeds(sent []Packet, err error) ([]Packet, error) {
	for err == nil {
		var more []Packet
		need := k.Need()
		switch need.Kind {
		case NeedPresence:
			more, err = k.ProvidePresence(k.nowMs(), k.nextPresence())
		case NeedKeyPair:
			more, err = k.provideKeyPair()
		case NeedSignature:
			more, err = k.provideSignature(need)
		default:
			return sent, nil
		}
		sent = append(sent, more...)
	}
	return nil, err
}

// transact sends a CTAPHID message on a channel, and returns the command and the data of the response message.
func (k *SecurityKey) transact(channel [4]byte, command byte, data []byte) (byte, []byte, error) {
	var sent []Packet
	for _, packet := range fragment(channel, command, data) {
		more, err := k.provideNeeds(k.HandlePacket(k.nowMs(), packet))
		if err != nil {
			return 0, nil, err
		}
		sent = append(sent, more...)
	}
	return reassemble(channel, sent)
}

// fragment splits a CTAPHID message into an initialization packet and continuation packets.
func fragment(channel [4]byte, command byte, data []byte) []Packet {
	var packet Packet
	copy(packet[:], channel[:])
	packet[4] = command
	binary.BigEndian.PutUint16(packet[5:], uint16(len(data)))
	rest := data[copy(packet[7:], data):]
	found := []Packet{packet}
	for sequence := byte(0); len(rest) > 0; sequence++ {
		packet = Packet{}
		copy(packet[:], channel[:])
		packet[4] = sequence
		rest = rest[copy(packet[5:], rest):]
		found = append(found, packet)
	}
	return found
}

// reassemble joins the packets of the message that the key sent on a channel, and returns the message's command and
// data. It skips KEEPALIVEs and packets on other channels.
func reassemble(channel [4]byte, sent []Packet) (command byte, data []byte, err error) {
	length := -1
	for _, packet := range sent {
		switch {
		case *(*[4]byte)(packet[:4]) != channel || packet[4] == commandKeepalive:
			continue
		case packet[4]&0x80 != 0:
			command, length = packet[4], int(binary.BigEndian.Uint16(packet[5:]))
			data = append([]byte(nil), packet[7:]...)
		default:
			data = append(data, packet[5:]...)
		}
	}
	if length < 0 || len(data) < length {
		return 0, nil, errors.New("hidlog: the key sent no response, or only part of one")
	}
	return command, data[:length], nil
}

// openChannel sends INIT on the broadcast channel, and stores the channel ID that the key allocates.
func (k *SecurityKey) openChannel() error {
	var nonce [8]byte
	if _, err := rand.Read(nonce[:]); err != nil {
		return err
	}
	_, data, err := k.transact([4]byte{255, 255, 255, 255}, commandInit, nonce[:])
	if err != nil {
		return err
	}
	copy(k.channel[:], data[8:12])
	return nil
}

// causeSuffix returns the end of an error message: a colon and the key's cause if the key rejected its last request, or
// an empty string if it did not or if a status is injected (Faults.Status).
func (k *SecurityKey) causeSuffix() string {
	if cause := k.Cause(); cause != "" && k.Faults.Status == 0 {
		return ": " + cause
	}
	return ""
}

// Exchange sends a CTAP2 request, and returns the response without its status byte. The request is the byte of the
// authenticator command, followed by its CBOR parameters. If the status byte is not 0, the error is a Status, and Cause
// returns why the key rejected the request. Exchange injects only the fault Status; a Browser injects the other Faults.
func (k *SecurityKey) Exchange(request []byte) ([]byte, error) {
	k.mutex.Lock()
	defer k.mutex.Unlock()
	if len(request) == 0 || len(request) > longestMessage {
		return nil, fmt.Errorf("hidlog: a request must have 1 to %d bytes, but it has %d", longestMessage, len(request))
	}
	if k.channel == [4]byte{} {
		if err := k.openChannel(); err != nil {
			return nil, err
		}
	}
	command, data, err := k.transact(k.channel, commandCBOR, request)
	if err != nil {
		return nil, err
	}
	if command == commandError {
		return nil, fmt.Errorf("hidlog: the key responded with CTAPHID_ERROR and the error code %x", data)
	}
	if len(data) == 0 {
		return nil, errors.New("hidlog: the key's response is empty: it has no status byte")
	}
	if k.Faults.Status != 0 {
		return nil, Status(k.Faults.Status)
	}
	if data[0] != 0 {
		return nil, Status(data[0])
	}
	return data[1:], nil
}
