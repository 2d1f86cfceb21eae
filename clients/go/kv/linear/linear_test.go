package linear

import (
	"bufio"
	"fmt"
	"math/rand"
	"os"
	"strconv"
	"strings"
	"testing"
)

// The file's lines say what is right.
func TestHistories(t *testing.T) {
	file, err := os.Open("testdata/histories")
	if err != nil {
		t.Fatal(err)
	}
	defer file.Close()
	count := 0
	for lines := bufio.NewScanner(file); lines.Scan(); {
		line := lines.Text()
		if line == "" || line[0] == '#' {
			continue
		}
		count++
		parts := strings.Split(line, " | ")
		history, err := parsed(parts[0])
		if err != nil {
			t.Fatalf("%s: %v", line, err)
		}
		is, err := Check(history, 1000000)
		if err != nil || is != (parts[1] == "is") {
			t.Errorf("%s: %v, %v", line, is, err)
		}
	}
	if count < 25 {
		t.Errorf("%d lines", count)
	}
}

func parsed(text string) (history []Operation, err error) {
	for _, part := range strings.Split(text, ", ") {
		words := strings.Fields(part)
		if len(words) != 4 {
			return nil, fmt.Errorf("four words are wanted: %s", part)
		}
		kinds := map[string]Kind{"put": Put, "get": Get, "delete": Delete}
		o := Operation{Kind: kinds[words[0]], Found: words[1] == "yes"}
		o.Value, _ = strconv.ParseUint(words[1], 10, 64)
		if o.Called, err = strconv.ParseInt(words[2], 10, 64); err != nil {
			return nil, err
		}
		if o.Return, err = strconv.ParseInt(words[3], 10, 64); err != nil {
			o.Return, err = Unknown, nil
		}
		history = append(history, o)
	}
	return
}

// Small histories at random, beside a search through all orders of all choices of those that acted.
func TestBesideAllOrders(t *testing.T) {
	random := rand.New(rand.NewSource(1))
	counts := map[bool]int{}
	for i := 0; i < 20000; i++ {
		history := atRandom(random)
		is, err := Check(history, 1000000)
		if err != nil {
			t.Fatal(err)
		}
		if wanted := hasOrder(history, make([]bool, len(history)), Absent); is != wanted {
			t.Fatalf("%v: %v", history, is)
		}
		counts[is]++
	}
	if counts[true] < 1000 || counts[false] < 1000 {
		t.Fatal(counts)
	}
}

func atRandom(random *rand.Rand) []Operation {
	history := make([]Operation, 1+random.Intn(6))
	for i := range history {
		called := random.Int63n(12)
		o := Operation{
			Kind:   Kind(random.Intn(3)),
			Value:  uint64(random.Intn(3)),
			Found:  random.Intn(2) == 0,
			Called: called,
			Return: called + random.Int63n(8),
		}
		if o.Kind == Put {
			o.Value = uint64(1 + i%2)
		}
		if random.Intn(8) == 0 {
			o.Return = Unknown
		}
		history[i] = o
	}
	return history
}

// Whether those that haven't acted yet can act in some order; one without an answer needn't.
func hasOrder(history []Operation, acted []bool, value uint64) bool {
	isDone := true
	earliest := int64(Unknown)
	for i, o := range history {
		if !acted[i] && o.Return != Unknown {
			isDone = false
			if o.Return < earliest {
				earliest = o.Return
			}
		}
	}
	if isDone {
		return true
	}
	for i, o := range history {
		if acted[i] || o.Called > earliest {
			continue
		}
		if after, fits := act(o, value); fits {
			acted[i] = true
			has := hasOrder(history, acted, after)
			acted[i] = false
			if has {
				return true
			}
		}
	}
	return false
}

// A long history with eight clients is decided in time.
func TestLong(t *testing.T) {
	random := rand.New(rand.NewSource(2))
	var history []Operation
	value, time := uint64(Absent), int64(0)
	for i := uint64(1); i <= 2000; i++ {
		o := Operation{Kind: Kind(random.Intn(2)), Value: i, Called: time - random.Int63n(80)}
		if o.Kind == Put {
			value = i
		} else {
			o.Value = value
		}
		o.Return = time + random.Int63n(80)
		time += 20
		history = append(history, o)
	}
	if is, err := Check(history, 10000000); !is || err != nil {
		t.Fatal(is, err)
	}
}
