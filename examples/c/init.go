// Initializes a key with the C library, sends INIT on the broadcast channel (CTAP 2.1, section 11.2.9.1.3) and prints
// the response. To run it:
//
//	CGO_CFLAGS=-I$PWD/release CGO_LDFLAGS=$PWD/release/libhidlog.a go run examples/c/init.go
package main

// #include <stdlib.h>
// #include "hidlog.h"
import "C"

import (
	"encoding/hex"
	"fmt"
	"os"
)

// expect exits with an error message if the C function with this name returned another value than the expected one.
func expect(found C.int32_t, expected C.int32_t, function string) {
	if found != expected {
		fmt.Fprintf(os.Stderr, "init: %s returned %d, expected %d\n", function, found, expected)
		os.Exit(1)
	}
}

func main() {
	// The struct is in C's memory, since it must not move while the key is initialized.
	key := (*C.struct_hidlog_key)(C.calloc(1, C.sizeof_struct_hidlog_key))
	key.memory = C.aligned_alloc(16, (C.hidlog_key_size()+15)/16*16)
	var aaguid [16]C.uint8_t
	packet := [64]C.uint8_t{0xff, 0xff, 0xff, 0xff, 0x86, 0, 8, 1, 2, 3, 4, 5, 6, 7, 8}
	expect(C.hidlog_key_init(key, &aaguid[0], 0, &aaguid[0], 0), 0, "hidlog_key_init")
	expect(C.hidlog_key_write_packet(key, 0, &packet[0]), 1, "hidlog_key_write_packet")
	expect(C.hidlog_key_read_packet(key, &packet[0]), 0, "hidlog_key_read_packet")
	response := make([]byte, len(packet))
	for i, b := range packet {
		response[i] = byte(b)
	}
	fmt.Println(hex.EncodeToString(response))
	expect(C.hidlog_key_destroy(key), 0, "hidlog_key_destroy")
	C.free(key.memory)
}
