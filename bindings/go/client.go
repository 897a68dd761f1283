package hidlog

// #include "hidlog.h"
import "C"

import (
	"fmt"
	"strings"
	"unsafe"
)

// ceremony is a method of navigator.credentials: create or get.
type ceremony C.uint32_t

const (
	createCeremony ceremony = C.HIDLOG_CLIENT_CREATE
	getCeremony    ceremony = C.HIDLOG_CLIENT_GET
)

// Maximum lengths in bytes of a CTAP2 request, and of a credential as JSON.
const (
	requestCapacity    = longestMessage
	credentialCapacity = 16384
)

var domErrorNames = map[C.int64_t]string{
	C.HIDLOG_CLIENT_TYPE_ERROR:          "TypeError",
	C.HIDLOG_CLIENT_ENCODING_ERROR:      "EncodingError",
	C.HIDLOG_CLIENT_RANGE_ERROR:         "RangeError",
	C.HIDLOG_CLIENT_NOT_SUPPORTED_ERROR: "NotSupportedError",
	C.HIDLOG_CLIENT_SECURITY_ERROR:      "SecurityError",
	C.HIDLOG_CLIENT_NOT_ALLOWED_ERROR:   "NotAllowedError",
	C.HIDLOG_CLIENT_INVALID_STATE_ERROR: "InvalidStateError",
	C.HIDLOG_CLIENT_SYNTAX_ERROR:        "SyntaxError",
}

// clientCall has the parameters of one call of navigator.credentials. Its methods call the C library (hidlog.h), which
// checks the options, builds the CTAP2 request, and converts the key's response to the credential's JSON.
type clientCall struct {
	ceremony          ceremony
	options, origin   []byte
	mediation, suffix []byte
	abilities         C.uint32_t
	isVerified        bool // whether the user is verified; set by buildRequest
}

// newClientCall returns a call to a key with the options key. An empty mediation stands for "optional".
func newClientCall(kind ceremony, options []byte, origin, mediation string, key AuthenticatorOptions) *clientCall {
	if mediation == "" {
		mediation = "optional"
	}
	return &clientCall{ceremony: kind, options: options, origin: []byte(origin), mediation: []byte(mediation),
		abilities: key.clientAbilities()}
}

// buildRequest checks the page's options, and returns the CTAP2 request: the command byte, followed by CBOR. It also
// sets c.isVerified.
func (c *clientCall) buildRequest() ([]byte, error) {
	out := make([]byte, requestCapacity)
	var report C.struct_hidlog_client_report
	length := C.hidlog_client_request(C.uint32_t(c.ceremony), firstByte(c.options), C.size_t(len(c.options)),
		firstByte(c.mediation), C.size_t(len(c.mediation)), firstByte(c.origin), C.size_t(len(c.origin)), firstByte(c.suffix),
		C.size_t(len(c.suffix)), c.abilities, &report, firstByte(out), C.size_t(len(out)))
	c.isVerified = report.is_verified == 1
	return readResult(length, report, out)
}

// buildCredential returns the credential as JSON, from the key's response: a status byte, followed by CBOR.
func (c *clientCall) buildCredential(from []byte) ([]byte, error) {
	out := make([]byte, credentialCapacity)
	var report C.struct_hidlog_client_report
	length := C.hidlog_client_response(C.uint32_t(c.ceremony), firstByte(c.options), C.size_t(len(c.options)),
		firstByte(c.mediation), C.size_t(len(c.mediation)), firstByte(c.origin), C.size_t(len(c.origin)), firstByte(c.suffix),
		C.size_t(len(c.suffix)), c.abilities, firstByte(from), C.size_t(len(from)), &report, firstByte(out),
		C.size_t(len(out)))
	return readResult(length, report, out)
}

// readResult returns the output of a C function that returned length and wrote to report and out. A negative length is
// an error code; then out has the texts for the error message.
func readResult(length C.int64_t, report C.struct_hidlog_client_report, out []byte) ([]byte, error) {
	if length >= 0 {
		return out[:length], nil
	}
	name, known := domErrorNames[length]
	if !known {
		return nil, fmt.Errorf("hidlog: the CTAP2 request or the credential's JSON is longer than %d bytes", len(out))
	}
	member, reason := out[:report.member_len], out[report.member_len:report.member_len+report.reason_len]
	return nil, &DOMError{name, strings.TrimPrefix(string(member)+": "+string(reason), ": ")}
}

// firstByte returns a pointer to the first byte of from. If from is empty, it returns a pointer to some other byte,
// since hidlog.h does not allow NULL pointers.
func firstByte(from []byte) *C.uint8_t {
	if len(from) == 0 {
		from = make([]byte, 1)
	}
	return (*C.uint8_t)(unsafe.Pointer(&from[0]))
}
