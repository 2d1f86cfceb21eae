package main

import (
	"context"
	"fmt"
	"math/rand"
	"sort"
	"strings"
	"sync"
	"syscall"
	"time"

	"kv/cluster"
)

// How long a node may take to end on a busy machine, and to meet a full disk.
const (
	endsWithin  = time.Minute
	fillsWithin = 15 * time.Second
)

// faults make things go wrong, one after the other.
type faults struct {
	cluster *cluster.Cluster
	disk    *disk
	random  *rand.Rand
	// Whether the disk was full since the last start of the node on it.
	wasFull bool

	mutex  sync.Mutex
	counts map[string]int
}

func (f *faults) String() string {
	f.mutex.Lock()
	defer f.mutex.Unlock()
	var told []string
	for name, count := range f.counts {
		told = append(told, fmt.Sprint(name, " ", count))
	}
	sort.Strings(told)
	return strings.Join(told, ", ")
}

// A fault goes wrong at a node, and is over when it returns.
type fault struct {
	name string
	do   func(f *faults, ctx context.Context, i int) error
}

var all = []fault{
	{"killed", (*faults).kill},
	{"killed", (*faults).kill},
	{"killed twice", (*faults).killTwice},
	{"all killed", (*faults).killAll},
	{"stopped", (*faults).stop},
	{"paused", (*faults).pause},
	{"cut off", (*faults).cutOff},
	{"cut off in silence", (*faults).silence},
	{"one way cut", (*faults).cutOneWay},
	{"disk full", (*faults).fill},
}

// run lets one thing after another go wrong, each of them once before any comes again, and then
// makes all whole. A node that ends by itself is an error, but for one whose disk is full.
func (f *faults) run(ctx context.Context) error {
	var order []int
	for ctx.Err() == nil {
		f.sleep(ctx, 200, 1000)
		if len(order) == 0 {
			order = f.random.Perm(len(all))
		}
		fault := all[order[0]]
		order = order[1:]
		if err := fault.do(f, ctx, f.random.Intn(cluster.Size)); err != nil {
			return fmt.Errorf("%s: %w", fault.name, err)
		}
		f.count(fault.name)
		if err := f.allRun(); err != nil {
			return fmt.Errorf("after %s: %w", fault.name, err)
		}
	}
	return nil
}

func (f *faults) count(name string) {
	f.mutex.Lock()
	defer f.mutex.Unlock()
	f.counts[name]++
}

func (f *faults) allRun() error {
	for i := 0; i < cluster.Size; i++ {
		if !f.cluster.HasEnded(i, 0) {
			continue
		}
		said := f.cluster.Said(i)
		last := said[strings.LastIndex(said, "\n")+1:]
		if i != fullNode || !f.wasFull || !strings.Contains(last, "space left on device") {
			return fmt.Errorf("node %d ended by itself: %s", i+1, said)
		}
		f.count("ended by a full disk")
		if err := f.start(i); err != nil {
			return err
		}
	}
	return nil
}

func (f *faults) start(i int) error {
	if i == fullNode {
		f.wasFull = false
	}
	return f.cluster.Start(i)
}

// sleep waits between so many milliseconds, or until the context ends.
func (f *faults) sleep(ctx context.Context, least, most int) {
	select {
	case <-ctx.Done():
	case <-time.After(time.Duration(least+f.random.Intn(most-least)) * time.Millisecond):
	}
}

// end ends nodes, waits, and starts them again.
func (f *faults) end(ctx context.Context, signal syscall.Signal, nodes ...int) error {
	for _, i := range nodes {
		f.cluster.Signal(i, signal)
	}
	for _, i := range nodes {
		if !f.cluster.HasEnded(i, endsWithin) {
			return fmt.Errorf("node %d doesn't end", i+1)
		}
	}
	f.sleep(ctx, 100, 2500)
	for _, i := range nodes {
		if err := f.start(i); err != nil {
			return err
		}
	}
	return nil
}

func (f *faults) kill(ctx context.Context, i int) error { return f.end(ctx, syscall.SIGKILL, i) }

func (f *faults) stop(ctx context.Context, i int) error { return f.end(ctx, syscall.SIGTERM, i) }

// killTwice kills two of three, so that nothing is committed for a while.
func (f *faults) killTwice(ctx context.Context, i int) error {
	return f.end(ctx, syscall.SIGKILL, i, (i+1)%cluster.Size)
}

func (f *faults) killAll(ctx context.Context, _ int) error {
	return f.end(ctx, syscall.SIGKILL, 0, 1, 2)
}

// pause stops a node's clock: what it believed of the others is old when it goes on.
func (f *faults) pause(ctx context.Context, i int) error {
	f.cluster.Signal(i, syscall.SIGSTOP)
	f.sleep(ctx, 300, 4000)
	f.cluster.Signal(i, syscall.SIGCONT)
	return nil
}

func (f *faults) cutOff(ctx context.Context, i int) error {
	f.cluster.Links.SetAround(i, cluster.Cut)
	f.sleep(ctx, 300, 4000)
	f.cluster.Links.Heal()
	return nil
}

func (f *faults) silence(ctx context.Context, i int) error {
	f.cluster.Links.SetAround(i, cluster.Silent)
	f.sleep(ctx, 300, 4000)
	f.cluster.Links.Heal()
	return nil
}

func (f *faults) cutOneWay(ctx context.Context, i int) error {
	f.cluster.Links.Set(i, (i+1)%cluster.Size, cluster.Silent)
	f.cluster.Links.Set((i+2)%cluster.Size, i, cluster.Cut)
	f.sleep(ctx, 300, 4000)
	f.cluster.Links.Heal()
	return nil
}

// fill fills the disk of one node until its log fails and it ends, and makes room. Who ended by it, also
// a little later, is started by allRun.
func (f *faults) fill(ctx context.Context, _ int) error {
	if f.disk == nil {
		return nil
	}
	f.wasFull = true
	if err := f.disk.fill(); err != nil {
		return err
	}
	f.cluster.HasEnded(fullNode, fillsWithin)
	f.sleep(ctx, 100, 1000)
	err := f.disk.empty()
	f.cluster.HasEnded(fullNode, time.Second)
	return err
}
