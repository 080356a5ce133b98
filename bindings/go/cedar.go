// Package cedar validates Cedar policies by the C library libcedar. Each function takes a call, a text of JSON, and answers one.
// A Schema is read once, for many calls.
package cedar

// #cgo pkg-config: cedar
// #include <cedar.h>
// typedef uint32_t cedar_call(const uint8_t *, size_t, uint8_t *, size_t, size_t *);
// static uint32_t make(int number, const uint8_t *call, size_t size, uint8_t *answer, size_t room, size_t *needed) {
//     static cedar_call *const calls[] = {cedar_validate, cedar_check_data, cedar_typed_conditions};
//     return calls[number](call, size, answer, room, needed);
// }
import "C"

import (
	"errors"
	"unsafe"
)

// Why a call is not answered.
var (
	ErrNoMemory     = errors.New("memory was refused")
	ErrNoText       = errors.New("the call is no text in UTF-8")
	ErrOtherLibrary = errors.New("libcedar has another number of calls")
)

// Validate validates policies: schema, policies and perhaps validationSettings.
func Validate(call []byte) ([]byte, error) { return answered(0, call) }

// CheckData checks data: schema and perhaps entities and request.
func CheckData(call []byte) ([]byte, error) { return answered(1, call) }

// TypedConditions answers the condition of a policy in each of its environments: schema, policy and perhaps validationSettings.
func TypedConditions(call []byte) ([]byte, error) { return answered(2, call) }

// pointer answers a pointer to bytes, also where there are none.
func pointer(bytes []byte) *C.uint8_t {
	if len(bytes) == 0 {
		bytes = []byte{0}
	}
	return (*C.uint8_t)(unsafe.Pointer(&bytes[0]))
}

func answered(number int, call []byte) ([]byte, error) {
	if C.cedar_abi() != C.CEDAR_ABI {
		return nil, ErrOtherLibrary
	}
	size := len(call)
	for room := 4*size + 4096; ; {
		answer := make([]byte, room)
		var needed C.size_t
		status := C.make(C.int(number), pointer(call), C.size_t(size), pointer(answer), C.size_t(room), &needed)
		switch status {
		case C.CEDAR_ANSWERED:
			return answer[:needed], nil
		case C.CEDAR_TOO_SMALL:
			room = int(needed)
		case C.CEDAR_NO_TEXT:
			return nil, ErrNoText
		default:
			return nil, ErrNoMemory
		}
	}
}
