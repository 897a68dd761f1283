package hidlog

// #include "hidlog.h"
import "C"

import (
	"fmt"
	"unsafe"
)

// Credentials returns the credentials on the authenticator, oldest first.
func (a *Authenticator) Credentials() []Credential {
	a.mutex.Lock()
	defer a.mutex.Unlock()
	if a.key == nil {
		return nil
	}
	var found []Credential
	var row C.struct_hidlog_credential
	for index := C.size_t(0); C.hidlog_key_get_credential(a.key, index, &row) == 0; index++ {
		credential := Credential{Discoverable: row.discoverable == 1, SignCount: uint32(row.sign_count)}
		copy(credential.RPIDHash[:], C.GoBytes(unsafe.Pointer(&row.rp_id_hash), 32))
		copy(credential.ID[:], C.GoBytes(unsafe.Pointer(&row.id), 32))
		copy(credential.X[:], C.GoBytes(unsafe.Pointer(&row.x), 32))
		copy(credential.Y[:], C.GoBytes(unsafe.Pointer(&row.y), 32))
		credential.UserID = C.GoBytes(unsafe.Pointer(&row.user_id), C.int(row.user_id_len))
		credential.UserName = string(C.GoBytes(unsafe.Pointer(&row.user_name), C.int(row.user_name_len)))
		found = append(found, credential)
	}
	return found
}

// updateCredentials calls call, which must call a C function that changes the credentials. This power-cycles the
// authenticator, so updateCredentials begins a new recording. It returns an error if a request is in progress.
// operation is named in the error message.
func (a *Authenticator) updateCredentials(operation string, call func() C.int32_t) error {
	a.mutex.Lock()
	defer a.mutex.Unlock()
	if a.key == nil {
		return ErrClosed
	}
	if err := toError(operation, call()); err != nil {
		return err
	}
	a.recordings = append(a.recordings, Recording{Snapshot: a.takeSnapshot()})
	return nil
}

// Add adds a credential, or replaces the one with the same ID. Like Remove and Clear, it power-cycles the
// authenticator.
func (a *Authenticator) Add(credential Credential) error {
	if len(credential.UserID) > 64 || len(credential.UserName) > 64 {
		return fmt.Errorf("hidlog: UserID and UserName must have at most 64 bytes each, but they have %d and %d",
			len(credential.UserID), len(credential.UserName))
	}
	var row C.struct_hidlog_credential
	set := func(to *C.uint8_t, from []byte) { copy(unsafe.Slice((*byte)(unsafe.Pointer(to)), len(from)), from) }
	set(&row.rp_id_hash[0], credential.RPIDHash[:])
	set(&row.id[0], credential.ID[:])
	set(&row.x[0], credential.X[:])
	set(&row.y[0], credential.Y[:])
	set(&row.user_id[0], credential.UserID)
	set(&row.user_name[0], []byte(credential.UserName))
	row.user_id_len, row.user_name_len = C.uint32_t(len(credential.UserID)), C.uint32_t(len(credential.UserName))
	row.sign_count = C.uint32_t(credential.SignCount)
	if credential.Discoverable {
		row.discoverable = 1
	}
	return a.updateCredentials("add credential", func() C.int32_t { return C.hidlog_key_add_credential(a.key, 0, &row) })
}

// Remove removes the credential with this ID, and power-cycles the authenticator.
func (a *Authenticator) Remove(id CredentialID) error {
	return a.updateCredentials("remove credential", func() C.int32_t {
		return C.hidlog_key_remove_credential(a.key, 0, firstByte(id[:]))
	})
}

// Clear removes all credentials, and power-cycles the authenticator.
func (a *Authenticator) Clear() error {
	return a.updateCredentials("clear credentials", func() C.int32_t { return C.hidlog_key_clear_credentials(a.key, 0) })
}

// takeSnapshot returns a snapshot of the credentials. The caller must hold a.mutex.
func (a *Authenticator) takeSnapshot() []byte {
	out := make([]byte, C.HIDLOG_SNAPSHOT_MAX_LEN)
	return out[:C.hidlog_key_save_snapshot(a.key, firstByte(out), C.size_t(len(out)))]
}

// Snapshot returns the credentials, without private keys, as a snapshot for NewAuthenticator and `hidlog check --load`.
func (a *Authenticator) Snapshot() ([]byte, error) {
	a.mutex.Lock()
	defer a.mutex.Unlock()
	if a.key == nil {
		return nil, ErrClosed
	}
	return a.takeSnapshot(), nil
}
