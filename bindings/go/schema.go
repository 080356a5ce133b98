package cedar

// #include <cedar.h>
// typedef uint32_t cedar_call_by(cedar_schema *, const uint8_t *, size_t, uint8_t *, size_t, size_t *);
// static uint32_t make_by(int number, cedar_schema *schema, const uint8_t *call, size_t size, uint8_t *answer, size_t room, size_t *needed) {
//     static cedar_call_by *const calls[] = {cedar_schema_validate, cedar_schema_check_data, cedar_schema_typed_conditions};
//     return calls[number](schema, call, size, answer, room, needed);
// }
import "C"

import (
	"errors"
	"fmt"
	"runtime"
	"sync"
)

// ErrClosed says that a Schema was closed.
var ErrClosed = errors.New("the schema is closed")

// SchemaError says that a schema cannot be read.
type SchemaError struct {
	// Failure is the answer, a text of JSON, which says why.
	Failure []byte
}

func (err *SchemaError) Error() string { return fmt.Sprintf("the schema cannot be read: %s", err.Failure) }

// Schema is a schema that is read once. Its calls name no schema. Goroutines that share one wait for each other.
type Schema struct {
	mutex  sync.Mutex
	handle C.cedar_schema
}

// Open opens the schema of a call, an object of schema alone. Close it, as by defer.
func Open(call []byte) (*Schema, error) {
	if C.cedar_abi() != C.CEDAR_ABI {
		return nil, ErrOtherLibrary
	}
	schema := &Schema{}
	for room := 4096; ; {
		answer := make([]byte, room)
		var needed C.size_t
		switch C.cedar_schema_open(&schema.handle, pointer(call), C.size_t(len(call)), pointer(answer), C.size_t(room), &needed) {
		case C.CEDAR_OPENED:
			runtime.SetFinalizer(schema, func(it *Schema) { it.Close() })
			return schema, nil
		case C.CEDAR_ANSWERED:
			return nil, &SchemaError{answer[:needed]}
		case C.CEDAR_TOO_SMALL:
			room = int(needed)
		case C.CEDAR_NO_TEXT:
			return nil, ErrNoText
		default:
			return nil, ErrNoMemory
		}
	}
}

// Close frees the schema. A closed one stays closed.
func (schema *Schema) Close() error {
	schema.mutex.Lock()
	defer schema.mutex.Unlock()
	C.cedar_schema_close(&schema.handle)
	return nil
}

// Validate validates policies: policies and perhaps validationSettings.
func (schema *Schema) Validate(call []byte) ([]byte, error) { return schema.answered(0, call) }

// CheckData checks data: perhaps entities and request.
func (schema *Schema) CheckData(call []byte) ([]byte, error) { return schema.answered(1, call) }

// TypedConditions answers the condition of a policy in each of its environments: policy and perhaps validationSettings.
func (schema *Schema) TypedConditions(call []byte) ([]byte, error) { return schema.answered(2, call) }

func (schema *Schema) answered(number int, call []byte) ([]byte, error) {
	schema.mutex.Lock()
	defer schema.mutex.Unlock()
	answer := make([]byte, 4*len(call)+4096)
	var needed C.size_t
	status := C.make_by(C.int(number), &schema.handle, pointer(call), C.size_t(len(call)), pointer(answer), C.size_t(len(answer)), &needed)
	if status == C.CEDAR_TOO_SMALL {
		answer = make([]byte, int(needed))
		status = C.cedar_schema_answer(&schema.handle, pointer(answer), C.size_t(len(answer)), &needed)
	}
	switch status {
	case C.CEDAR_ANSWERED:
		return answer[:needed], nil
	case C.CEDAR_NO_TEXT:
		return nil, ErrNoText
	case C.CEDAR_CLOSED:
		return nil, ErrClosed
	default:
		return nil, ErrNoMemory
	}
}
