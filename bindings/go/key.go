package hidlog

// /* The prebuilt library for Linux on amd64 and arm64 is in lib in the published module, and in release in a clone of
//    the repository. Otherwise, portable.c compiles the library. */
// #cgo CFLAGS: -I${SRCDIR}/lib -I${SRCDIR}/lib/portable -I${SRCDIR}/../../release
// #cgo linux,amd64,!hidlog_portable LDFLAGS: -L${SRCDIR}/lib/amd64 -L${SRCDIR}/../../release -l:libhidlog.a
// #cgo linux,arm64,!hidlog_portable LDFLAGS: -L${SRCDIR}/lib/arm64 -L${SRCDIR}/../../release/aarch64 -l:libhidlog.a
// #include <stdlib.h>
// #include "hidlog.h"
import "C"

import (
	"errors"
	"fmt"
	"runtime"
	"sync"
	"unsafe"
)

// causeCapacity is the maximum length in bytes of the sentence that Cause returns: hidlog_key_cause in hidlog.h.
const causeCapacity = 160

// PacketSize is the length of a CTAPHID packet in bytes.
const PacketSize = 64

// CredentialID is a credential ID.
type CredentialID [32]byte

// Packet is a CTAPHID packet.
type Packet [PacketSize]byte

// Presence is what the user does when the authenticator asks for a touch.
type Presence int

// The user touches the key (PresenceGranted), refuses to (PresenceDenied), or does nothing until the authenticator's
// timeout (PresenceTimedOut).
const (
	PresenceGranted Presence = iota
	PresenceDenied
	PresenceTimedOut
)

// String returns the word that stands for p in a session log: granted, denied or timeout.
func (p Presence) String() string {
	return [...]string{"granted", "denied", "timeout"}[p]
}

// NeedKind is the kind of input that an authenticator needs from its caller to continue a request.
type NeedKind int

// Whether the authenticator needs nothing, user presence, a new key pair, or a signature. The values are those of enum
// hidlog_need_kind.
const (
	NeedNone NeedKind = iota
	NeedPresence
	NeedKeyPair
	NeedSignature
)

// Need is what an authenticator needs from its caller to continue a request. ID and ToSign are set only if Kind is
// NeedSignature: then sign ToSign (ECDSA with SHA-256, in DER) with the private key of the credential whose ID is ID.
type Need struct {
	Kind   NeedKind
	ID     CredentialID
	ToSign []byte
}

// Credential is a credential without its private key.
type Credential struct {
	RPIDHash     [32]byte // SHA-256 of the RP ID
	ID           CredentialID
	X, Y         [32]byte // the public key on P-256
	UserID       []byte   // the user handle, at most 64 bytes
	UserName     string   // UTF-8, at most 64 bytes
	Discoverable bool
	SignCount    uint32
}

// Recording is the log of a session, and the snapshot of the credentials with which the session started (empty if it
// started without a snapshot). `hidlog check --load SNAPSHOT LOG` checks a recording.
type Recording struct {
	Snapshot []byte
	Log      []byte
}

// Authenticator is the formally verified core, without private keys and without a simulated user. The caller passes in
// the host's packets, and user presence, key pairs and signatures when they are needed; the authenticator returns
// packets for the host. Times are milliseconds since power-up. Each input is recorded. If a method returns an error,
// its input is not recorded, and the authenticator is unchanged. The methods may be called from several goroutines.
type Authenticator struct {
	mutex      sync.Mutex
	key        *C.struct_hidlog_key
	recordings []Recording
}

// ErrClosed is the error that an Authenticator's methods return after Close.
var ErrClosed = errors.New("hidlog: the authenticator is closed")

var errorTexts = map[C.int32_t]string{
	C.HIDLOG_KEY_ERR_NOT_INITIALIZED:  "the key is not initialized",
	C.HIDLOG_KEY_ERR_PACKETS_QUEUED:   "packets are queued: read them first",
	C.HIDLOG_KEY_ERR_INVALID_ARGUMENT: "no credential has this ID, or the user name is not UTF-8",
	C.HIDLOG_KEY_ERR_BUSY:             "a request is in progress: provide what it needs first",
	C.HIDLOG_KEY_ERR_DUPLICATE_USER:   "another discoverable credential has the same RP and user",
	C.HIDLOG_KEY_ERR_NOT_A_SNAPSHOT:   "the bytes are not a snapshot",
	C.HIDLOG_KEY_ERR_FULL:             "the key is full: its capacity is 64 credentials",
	C.HIDLOG_KEY_ERR_BAD_CREDENTIAL:   "the snapshot has an invalid credential",
}

// toError converts the return value of a C function to a Go error. Negative values are error codes (enum
// hidlog_key_error); toError returns nil for other values. operation is named in the error message.
func toError(operation string, status C.int32_t) error {
	if status >= 0 {
		return nil
	}
	text := errorTexts[status]
	if text == "" {
		text = fmt.Sprintf("unknown error code %d of the C library", status)
	}
	return fmt.Errorf("hidlog: %s: %s", operation, text)
}

// NewAuthenticator returns an authenticator with the credentials of a snapshot, or without credentials if the snapshot
// is empty. Close frees its memory; without a call of Close, the garbage collector does.
func NewAuthenticator(snapshot []byte) (*Authenticator, error) {
	a := &Authenticator{recordings: []Recording{{Snapshot: clone(snapshot)}}}
	a.key = (*C.struct_hidlog_key)(C.calloc(1, C.sizeof_struct_hidlog_key))
	// The prebuilt library needs memory aligned to 16 bytes. On the platforms that have a prebuilt library, malloc
	// always returns such memory. The portable library needs no alignment.
	a.key.memory = C.malloc(C.hidlog_key_size())
	var aaguid [16]C.uint8_t
	status := C.hidlog_key_init(a.key, &aaguid[0], 0, firstByte(snapshot), C.size_t(len(snapshot)))
	if err := toError("new authenticator", status); err != nil {
		a.free()
		return nil, err
	}
	runtime.SetFinalizer(a, (*Authenticator).Close)
	return a, nil
}

func clone(from []byte) []byte {
	return append([]byte(nil), from...)
}

func (a *Authenticator) free() {
	C.free(a.key.memory)
	C.free(unsafe.Pointer(a.key))
	a.key = nil
}

// Close destroys the authenticator. The recordings remain available.
func (a *Authenticator) Close() {
	a.mutex.Lock()
	defer a.mutex.Unlock()
	if a.key != nil {
		C.hidlog_key_destroy(a.key)
		a.free()
	}
}

// handleInput calls call, which must pass an input to the C library, and returns the packets that the authenticator
// sends. It appends line, the input's line in the log, and the lines of these packets to the recording.
func (a *Authenticator) handleInput(line string, call func() C.int32_t) ([]Packet, error) {
	a.mutex.Lock()
	defer a.mutex.Unlock()
	if a.key == nil {
		return nil, ErrClosed
	}
	if err := toError("input", call()); err != nil {
		return nil, err
	}
	recording := &a.recordings[len(a.recordings)-1]
	recording.Log = append(append(recording.Log, line...), '\n')
	var sent []Packet
	var packet Packet
	for C.hidlog_key_read_packet(a.key, firstByte(packet[:])) >= 0 {
		recording.Log = fmt.Appendf(recording.Log, "< %x\n", packet)
		sent = append(sent, packet)
	}
	return sent, nil
}

// addComment appends a comment line to the log of the current recording.
func (a *Authenticator) addComment(text string) {
	a.mutex.Lock()
	defer a.mutex.Unlock()
	recording := &a.recordings[len(a.recordings)-1]
	recording.Log = append(recording.Log, "# "+text+"\n"...)
}

// HandlePacket handles a packet from the host, and returns the packets sent in response.
func (a *Authenticator) HandlePacket(timeMs uint64, packet Packet) ([]Packet, error) {
	return a.handleInput(fmt.Sprintf("> %d %x", timeMs, packet), func() C.int32_t {
		return C.hidlog_key_write_packet(a.key, C.uint64_t(timeMs), firstByte(packet[:]))
	})
}

// Tick tells the authenticator the current time, so that it can handle timeouts and send KEEPALIVEs, and returns the
// packets that it sends.
func (a *Authenticator) Tick(timeMs uint64) ([]Packet, error) {
	return a.handleInput(fmt.Sprintf("t %d", timeMs), func() C.int32_t {
		return C.hidlog_key_tick(a.key, C.uint64_t(timeMs))
	})
}

// ProvidePresence tells an authenticator that needs user presence (NeedPresence) what the user did.
func (a *Authenticator) ProvidePresence(timeMs uint64, presence Presence) ([]Packet, error) {
	if presence < PresenceGranted || presence > PresenceTimedOut {
		return nil, fmt.Errorf("hidlog: invalid presence %d; expected PresenceGranted, PresenceDenied or PresenceTimedOut",
			int(presence))
	}
	return a.handleInput(fmt.Sprintf("p %d %s", timeMs, presence), func() C.int32_t {
		return C.hidlog_key_provide_presence(a.key, C.uint64_t(timeMs), C.uint32_t(presence))
	})
}

// ProvideKeyPair provides a new key pair: the ID of the new credential, and the coordinates of its public key on P-256.
// The caller keeps the private key.
func (a *Authenticator) ProvideKeyPair(timeMs uint64, id CredentialID, x, y [32]byte) ([]Packet, error) {
	return a.handleInput(fmt.Sprintf("k %d %x %x %x", timeMs, id, x, y), func() C.int32_t {
		return C.hidlog_key_provide_key_pair(a.key, C.uint64_t(timeMs), firstByte(id[:]), firstByte(x[:]), firstByte(y[:]))
	})
}

// ProvideSignature provides a signature in DER, 1 to 72 bytes long.
func (a *Authenticator) ProvideSignature(timeMs uint64, signature []byte) ([]Packet, error) {
	if len(signature) == 0 || len(signature) > 72 {
		return nil, fmt.Errorf("hidlog: a signature must have 1 to 72 bytes, not %d", len(signature))
	}
	return a.handleInput(fmt.Sprintf("s %d %x", timeMs, signature), func() C.int32_t {
		return C.hidlog_key_provide_signature(a.key, C.uint64_t(timeMs), firstByte(signature), C.size_t(len(signature)))
	})
}

// Reject tells the authenticator that the caller cannot provide a key pair (NeedKeyPair) or a signature
// (NeedSignature).
func (a *Authenticator) Reject(timeMs uint64, need NeedKind) ([]Packet, error) {
	switch need {
	case NeedKeyPair:
		return a.handleInput(fmt.Sprintf("k %d no", timeMs), func() C.int32_t {
			return C.hidlog_key_refuse_key_pair(a.key, C.uint64_t(timeMs))
		})
	case NeedSignature:
		return a.handleInput(fmt.Sprintf("s %d no", timeMs), func() C.int32_t {
			return C.hidlog_key_refuse_signature(a.key, C.uint64_t(timeMs))
		})
	default:
		return nil, fmt.Errorf("hidlog: Reject must be called with NeedKeyPair or NeedSignature, not %d; "+
			"to deny user presence, call ProvidePresence with PresenceDenied", int(need))
	}
}

// Cause returns why the authenticator responded to its last input with an ERROR packet or with a status other than 0,
// as a sentence without a full stop. Cause returns an empty string if there was no such response, or no input since
// power-up.
func (a *Authenticator) Cause() string {
	a.mutex.Lock()
	defer a.mutex.Unlock()
	if a.key == nil {
		return ""
	}
	var cause C.struct_hidlog_cause
	text := make([]byte, causeCapacity)
	length := C.hidlog_key_cause(a.key, 1, &cause, firstByte(text), causeCapacity)
	return string(text[:max(0, int(length))])
}

// Need returns what the authenticator needs from the caller now.
func (a *Authenticator) Need() Need {
	a.mutex.Lock()
	defer a.mutex.Unlock()
	if a.key == nil {
		return Need{}
	}
	var need C.struct_hidlog_need
	C.hidlog_key_get_need(a.key, &need)
	found := Need{Kind: NeedKind(need.kind)}
	copy(found.ID[:], C.GoBytes(unsafe.Pointer(&need.id), 32))
	found.ToSign = C.GoBytes(unsafe.Pointer(&need.to_sign), C.int(need.to_sign_len))
	return found
}

// Recordings returns all recordings, oldest first. Add, Remove and Clear begin a new recording if they succeed.
func (a *Authenticator) Recordings() []Recording {
	a.mutex.Lock()
	defer a.mutex.Unlock()
	found := make([]Recording, 0, len(a.recordings))
	for _, recording := range a.recordings {
		found = append(found, Recording{clone(recording.Snapshot), clone(recording.Log)})
	}
	return found
}
