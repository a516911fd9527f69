// For Go, by cgo: may the page read this answer?
//
//	PKG_CONFIG_PATH=out/lib/pkgconfig LD_LIBRARY_PATH=out/lib go run examples/embed/rules.go
package main

/*
#cgo pkg-config: fiorrudda
#include <stdlib.h>
#include "fiorrudda.h"
*/
import "C"

import (
	"fmt"
	"os"
	"runtime"
	"unsafe"
)

// text lends a string to one call: a pointer, which is never nil, and a length.
func text(said string) (*C.uint8_t, C.size_t) {
	bytes := append([]byte(said), 0)
	return (*C.uint8_t)(unsafe.Pointer(&bytes[0])), C.size_t(len(said))
}

// Headers is a header list. One goroutine at a time uses it.
type Headers struct{ handle *C.fiorrudda_handle }

// NewHeaders makes a list that is freed with its owner. The handle lies in C's memory, where Go moves nothing.
func NewHeaders() (*Headers, error) {
	made := &Headers{(*C.fiorrudda_handle)(C.calloc(1, C.sizeof_fiorrudda_handle))}
	runtime.SetFinalizer(made, func(it *Headers) {
		C.fiorrudda_free(it.handle)
		C.free(unsafe.Pointer(it.handle))
	})
	if code := C.fiorrudda_headers(made.handle); code != C.FIORRUDDA_OK {
		return nil, fmt.Errorf("code %d", code)
	}
	return made, nil
}

// Append adds a header.
func (it *Headers) Append(name, value string) error {
	nameAt, nameLen := text(name)
	valueAt, valueLen := text(value)
	defer runtime.KeepAlive(it)
	if code := C.fiorrudda_append(it.handle, nameAt, nameLen, valueAt, valueLen); code != C.FIORRUDDA_OK {
		return fmt.Errorf("%q: code %d", name, code)
	}
	return nil
}

// PassesCorsCheck is true on the one code that permits, and false on each other.
func (it *Headers) PassesCorsCheck(origin string, include bool) bool {
	at, size := text(origin)
	defer runtime.KeepAlive(it)
	return C.fiorrudda_cors_check(at, size, C.bool(include), it.handle) == C.FIORRUDDA_OK
}

func main() {
	answer, err := NewHeaders()
	if err == nil {
		err = answer.Append("Access-Control-Allow-Origin", "*")
	}
	if err != nil {
		fmt.Fprintln(os.Stderr, "rules:", err)
		os.Exit(1)
	}
	fmt.Println("without credentials:", answer.PassesCorsCheck("https://app.example", false))
	fmt.Println("with credentials:", answer.PassesCorsCheck("https://app.example", true))
}
