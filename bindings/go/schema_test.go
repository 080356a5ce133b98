package cedar

import (
	"bytes"
	"errors"
	"strings"
	"sync"
	"testing"
)

const (
	only = `{"schema":"entity U{a?:Long};action v appliesTo{principal:U,resource:U};"}`
	by   = `{"policies":{"staticPolicies":{"x":"permit(principal,action,resource) when {principal.a == 1};"}}}`
)

func opened(t *testing.T) *Schema {
	schema, err := Open([]byte(only))
	if err != nil {
		t.Fatal(err)
	}
	return schema
}

func same(t *testing.T, found []byte, err error, wanted []byte, wantedErr error) {
	if err != nil || wantedErr != nil || !bytes.Equal(found, wanted) {
		t.Fatalf("%s, %v, where %s is wanted", found, err, wanted)
	}
}

func TestSchemaAnswers(t *testing.T) {
	opened := opened(t)
	defer opened.Close()
	for i := 0; i < 3; i++ {
		found, err := opened.Validate([]byte(by))
		wanted, wantedErr := Validate([]byte(call))
		same(t, found, err, wanted, wantedErr)
	}
	found, err := opened.CheckData([]byte(`{"entities":[]}`))
	wanted, wantedErr := CheckData([]byte(schema + `"entities":[]}`))
	same(t, found, err, wanted, wantedErr)
	policy := `"policy":"permit(principal,action,resource) when {principal == resource};"}`
	found, err = opened.TypedConditions([]byte("{" + policy))
	wanted, wantedErr = TypedConditions([]byte(schema + policy))
	same(t, found, err, wanted, wantedErr)
}

func TestSchemaErrors(t *testing.T) {
	for _, text := range []string{"", "{}", `{"schema":"entity"}`} {
		_, err := Open([]byte(text))
		var refused *SchemaError
		if !errors.As(err, &refused) || !bytes.HasPrefix(refused.Failure, []byte(`{"type":"failure"`)) {
			t.Fatal(err)
		}
	}
	if _, err := Open([]byte{0xff}); err != ErrNoText {
		t.Fatal(err)
	}
	schema := opened(t)
	if _, err := schema.Validate([]byte{0xff}); err != ErrNoText {
		t.Fatal(err)
	}
	schema.Close()
	schema.Close()
	if _, err := schema.Validate([]byte(by)); err != ErrClosed {
		t.Fatal(err)
	}
}

func TestSchemaKeepsAnAnswer(t *testing.T) {
	opened := opened(t)
	defer opened.Close()
	policies := `"policies":"` + strings.Repeat("permit(principal,action,resource) when {principal.a == 1};", 200) + `"}`
	found, err := opened.Validate([]byte("{" + policies))
	wanted, wantedErr := Validate([]byte(schema + policies))
	if len(wanted) <= 4*len(policies)+4100 {
		t.Fatal("the answer fits at once")
	}
	same(t, found, err, wanted, wantedErr)
}

func TestSchemaThreads(t *testing.T) {
	shared := opened(t)
	defer shared.Close()
	wanted, _ := Validate([]byte(call))
	var group sync.WaitGroup
	for i := 0; i < 4; i++ {
		group.Add(1)
		go func() {
			defer group.Done()
			for i := 0; i < calls/4; i++ {
				if answer, err := shared.Validate([]byte(by)); err != nil || !bytes.Equal(answer, wanted) {
					t.Error(err)
				}
			}
		}()
	}
	group.Wait()
}
