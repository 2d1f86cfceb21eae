package main

import (
	"context"
	"fmt"
	"math/rand"
	"sort"
	"strconv"
	"sync"
	"time"

	"kv/client"
	"kv/linear"
)

const (
	// How many keys are used at once, and how many operations they get before others take their
	// place, so that each key's history stays short enough to be searched.
	keysAtOnce   = 6
	callsOnKeys  = 600
	patience     = 30 * time.Second
	searchBound  = 50000000
	reportEvery  = 5 * time.Second
	pauseBetween = 8 * time.Millisecond
)

// A history is what all clients called and were answered, by key.
type history struct {
	begun time.Time

	mutex    sync.Mutex
	byKey    map[string][]linear.Operation
	calls    int
	unknown  int
	again    int
	lastPut  uint64
	readBack int
	// The longest time that a call took.
	longest time.Duration
}

func newHistory() *history {
	return &history{begun: time.Now(), byKey: map[string][]linear.Operation{}}
}

func (h *history) now() int64 { return int64(time.Since(h.begun)) }

func (h *history) String() string {
	h.mutex.Lock()
	defer h.mutex.Unlock()
	return fmt.Sprintf("%d calls on %d keys, %d sent again, %d without an answer, the longest "+
		"took %s", h.calls, len(h.byKey), h.again, h.unknown, h.longest.Round(time.Millisecond))
}

// report prints how far it is.
func (h *history) report(ctx context.Context, f *faults) {
	for {
		select {
		case <-ctx.Done():
			return
		case <-time.After(reportEvery):
			fmt.Printf("%3.0f s: %s; %s\n", time.Since(h.begun).Seconds(), h, f)
		}
	}
}

// call makes calls by one client until the context ends; the last one is waited for.
func (h *history) call(
	ctx context.Context, nodes []string, groups uint64, i int, random *rand.Rand,
) {
	c := client.New(nodes, groups, i)
	again := 0
	for ctx.Err() == nil {
		h.mutex.Lock()
		h.again += c.Again() - again
		again = c.Again()
		era := h.calls / callsOnKeys
		h.lastPut++
		number := h.lastPut
		h.mutex.Unlock()
		key := fmt.Sprintf("era %d, key %d", era, random.Intn(keysAtOnce))
		o := linear.Operation{Value: number}
		switch n := random.Intn(10); {
		case n < 5:
			o.Kind = linear.Put
		case n < 9:
			o.Kind = linear.Get
		default:
			o.Kind = linear.Delete
		}
		within, cancel := context.WithTimeout(context.Background(), patience)
		o.Called = h.now()
		err := carryOut(within, c, key, &o)
		o.Return = h.now()
		cancel()
		h.note(key, o, err)
		time.Sleep(time.Duration(random.Int63n(int64(pauseBetween))))
	}
}

// carryOut makes one call, and notes what it was answered.
func carryOut(ctx context.Context, c *client.Client, key string, o *linear.Operation) (err error) {
	switch o.Kind {
	case linear.Put:
		err = c.Put(ctx, key, []byte(fmt.Sprint(o.Value)))
	case linear.Delete:
		o.Found, err = c.Delete(ctx, key)
	default:
		var value []byte
		var found bool
		value, found, err = c.Get(ctx, key)
		o.Value = linear.Absent
		if found && err == nil {
			o.Value, err = strconv.ParseUint(string(value), 10, 64)
		}
	}
	return
}

func (h *history) note(key string, o linear.Operation, err error) {
	h.mutex.Lock()
	defer h.mutex.Unlock()
	h.calls++
	if took := time.Duration(o.Return - o.Called); took > h.longest {
		h.longest = took
	}
	if err != nil {
		h.unknown++
		o.Return = linear.Unknown
		if o.Kind == linear.Get {
			return
		}
	}
	h.byKey[key] = append(h.byKey[key], o)
}

// readAll reads each key at each node, once all of them answer.
func (h *history) readAll(ctx context.Context, nodes []string, groups uint64) error {
	var keys []string
	for key := range h.byKey {
		keys = append(keys, key)
	}
	sort.Strings(keys)
	failures := make([]error, len(nodes))
	var wait sync.WaitGroup
	for i, address := range nodes {
		wait.Add(1)
		go func(i int, c *client.Client) {
			defer wait.Done()
			for _, key := range keys {
				o := linear.Operation{Kind: linear.Get, Called: h.now()}
				if err := carryOut(ctx, c, key, &o); err != nil {
					failures[i] = fmt.Errorf("%s of node %d: %w", key, i+1, err)
					return
				}
				o.Return = h.now()
				h.note(key, o, nil)
			}
		}(i, client.New([]string{address}, groups, 0))
	}
	wait.Wait()
	for _, err := range failures {
		if err != nil {
			return err
		}
	}
	h.readBack = len(keys) * len(nodes)
	return nil
}

// check decides each key's history.
func (h *history) check() error {
	longest := 0
	for key, operations := range h.byKey {
		if len(operations) > longest {
			longest = len(operations)
		}
		is, err := linear.Check(operations, searchBound)
		if err != nil {
			return fmt.Errorf("%s, %d calls: %w", key, len(operations), err)
		}
		if !is {
			return fmt.Errorf("what was seen of %s isn't linearizable:\n%s", key, told(operations))
		}
	}
	fmt.Printf("the calls of %d keys are linearizable, at most %d of one key; %d reads at the end\n",
		len(h.byKey), longest, h.readBack)
	return nil
}

// told prints a history, a call a line, as linear/testdata has them.
func told(operations []linear.Operation) (text string) {
	sort.Slice(operations, func(i, j int) bool { return operations[i].Called < operations[j].Called })
	for _, o := range operations {
		kind := map[linear.Kind]string{linear.Put: "put", linear.Get: "get", linear.Delete: "delete"}
		text += fmt.Sprintf("%s %d %d %d %v\n", kind[o.Kind], o.Value, o.Called, o.Return, o.Found)
	}
	return
}
