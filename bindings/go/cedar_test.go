package cedar

import (
	"bytes"
	"sync"
	"testing"
)

const (
	schema = `{"schema":"entity U{a?:Long};action v appliesTo{principal:U,resource:U};",`
	call   = schema + `"policies":{"staticPolicies":{"x":"permit(principal,action,resource) when {principal.a == 1};"}}}`
	calls  = 10000
)

func has(t *testing.T, answer []byte, err error, text string) {
	if err != nil || !bytes.Contains(answer, []byte(text)) {
		t.Fatalf("%s, %v, where %s is wanted", answer, err, text)
	}
}

func TestAnswers(t *testing.T) {
	answer, err := Validate([]byte(call))
	has(t, answer, err, `"code":"unguarded-attribute"`)
	answer, err = CheckData([]byte(schema + `"entities":[]}`))
	has(t, answer, err, `"conforms":true`)
	answer, err = TypedConditions([]byte(schema + `"policy":"permit(principal,action,resource) when {principal == resource};"}`))
	has(t, answer, err, `{"==":{"left":{"Var":"principal"},"right":{"Var":"resource"}}}`)
}

func TestOddTexts(t *testing.T) {
	for _, text := range [][]byte{{}, {0}, bytes.Repeat([]byte("["), 1<<26+1)} {
		answer, err := Validate(text)
		has(t, answer, err, `{"type":"failure"`)
	}
	if _, err := Validate([]byte{0xff}); err != ErrNoText {
		t.Fatal(err)
	}
}

func TestThreads(t *testing.T) {
	wanted, _ := Validate([]byte(call))
	var group sync.WaitGroup
	for i := 0; i < 4; i++ {
		group.Add(1)
		go func() {
			defer group.Done()
			for i := 0; i < calls/4; i++ {
				if answer, err := Validate([]byte(call)); err != nil || !bytes.Equal(answer, wanted) {
					t.Error(err)
				}
			}
		}()
	}
	group.Wait()
}
