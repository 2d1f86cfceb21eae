// Bench measures how many puts a second three nodes of kv commit, each put by one of some clients
// that wait for its answer, over each store in turn.
//
//	bench --program KV [--stores raftlog,wal,bolt] [--groups 1,64] [--clients 1,16,64]
//	      [--seconds 4] [--turns 3] [--folder FOLDER]
//
// The program is to be built with the tag compare. The folder is to be on the disk that is
// measured; the current one is used where none is named. The wal makes files of 64 MB ahead: with 64
// groups it takes 24 GB, and on a tmpfs so much memory. It prints a line for each measurement, and
// then the middle and the best of the turns.
package main

import (
	"context"
	"flag"
	"fmt"
	"net/http"
	"os"
	"path/filepath"
	"sort"
	"strconv"
	"strings"
	"sync"
	"sync/atomic"
	"syscall"
	"time"

	"kv/cluster"
	"kv/node"
)

const (
	keys      = 10000
	valueSize = 100
	warming   = time.Second
	patience  = time.Minute
)

// A setting is one field of the table.
type setting struct {
	store           string
	groups, clients int
}

// Puts a second, puts for each round of a node that synced, and changes of groups in each of those:
// a store with a file for each group syncs so many files then, and raftlog one.
type measured struct {
	perSecond, perSync, groups float64
}

type bench struct {
	program, folder string
	stores          []string
	groups, clients []int
	seconds, turns  int
	results         map[setting][]measured
}

func main() {
	b := bench{results: map[setting][]measured{}}
	var stores, groups, clients string
	flag.StringVar(&b.program, "program", "", "the program kv, built with the tag compare")
	flag.StringVar(&b.folder, "folder", ".", "where the nodes' folders are made")
	flag.StringVar(&stores, "stores", "raftlog,wal,bolt", "the stores")
	flag.StringVar(&groups, "groups", "1,64", "the numbers of Raft groups")
	flag.StringVar(&clients, "clients", "1,16,64", "the numbers of clients")
	flag.IntVar(&b.seconds, "seconds", 4, "how long each is measured")
	flag.IntVar(&b.turns, "turns", 3, "how often each is measured")
	flag.Parse()
	b.stores = strings.Split(stores, ",")
	err := b.setNumbers(groups, clients)
	if err == nil {
		err = b.run()
	}
	if err != nil {
		fmt.Fprintln(os.Stderr, "bench:", err)
		os.Exit(1)
	}
	b.print()
}

func (b *bench) setNumbers(groups, clients string) (err error) {
	if b.groups, err = numbers(groups); err != nil {
		return
	}
	if b.clients, err = numbers(clients); err != nil {
		return
	}
	if b.program, err = filepath.Abs(b.program); err != nil {
		return
	}
	_, err = os.Stat(b.program)
	return
}

func numbers(text string) (all []int, err error) {
	for _, part := range strings.Split(text, ",") {
		n, err := strconv.Atoi(part)
		if err != nil || n < 1 {
			return nil, fmt.Errorf("%s: numbers above 0 with commas between them", text)
		}
		all = append(all, n)
	}
	return
}

func (b *bench) run() error {
	for turn := 0; turn < b.turns; turn++ {
		for _, groups := range b.groups {
			for i := range b.stores {
				// Each store comes first in some turn.
				store := b.stores[(i+turn)%len(b.stores)]
				if err := b.measure(store, groups); err != nil {
					return fmt.Errorf("%s, %d groups: %w", store, groups, err)
				}
			}
		}
	}
	return nil
}

func (b *bench) measure(store string, groups int) error {
	folder, err := os.MkdirTemp(b.folder, "kv-bench-")
	if err != nil {
		return err
	}
	defer os.RemoveAll(folder)
	c, err := cluster.New(cluster.Options{
		Program:   b.program,
		Folder:    folder,
		Groups:    uint64(groups),
		Arguments: []string{"--store", store},
	})
	if err != nil {
		return err
	}
	defer c.KillAll()
	ctx, cancel := context.WithTimeout(context.Background(), patience)
	defer cancel()
	if err := c.StartAll(ctx); err != nil {
		return fmt.Errorf("%w: %s", err, c.Said(0))
	}
	for _, clients := range b.clients {
		s := setting{store, groups, clients}
		m, err := b.load(c, s)
		if err != nil {
			return err
		}
		fmt.Printf("%s, %d groups, %d clients: %.0f puts a second, %.1f a round that syncs, %.1f "+
			"groups in it\n", store, groups, clients, m.perSecond, m.perSync, m.groups)
		b.results[s] = append(b.results[s], m)
	}
	for i := 0; i < cluster.Size; i++ {
		c.End(i, syscall.SIGTERM, 10*time.Second)
	}
	return nil
}

// load lets clients put, and counts what is answered after they are warm.
func (b *bench) load(c *cluster.Cluster, s setting) (m measured, err error) {
	var l load
	var wait sync.WaitGroup
	for i := 0; i < s.clients; i++ {
		wait.Add(1)
		go func(i int) {
			defer wait.Done()
			l.put(c.HTTP[i%cluster.Size], i)
		}(i)
	}
	ctx, cancel := context.WithTimeout(context.Background(), patience)
	defer cancel()
	time.Sleep(warming)
	before, begun, first := atomic.LoadInt64(&l.puts), time.Now(), statsOf(ctx, c)
	time.Sleep(time.Duration(b.seconds) * time.Second)
	count, took := atomic.LoadInt64(&l.puts)-before, time.Since(begun).Seconds()
	last := statsOf(ctx, c)
	atomic.StoreInt32(&l.isOver, 1)
	wait.Wait()
	if l.refused > 0 {
		return m, fmt.Errorf("%d puts were refused", l.refused)
	}
	syncs := float64(last.Syncs - first.Syncs)
	return measured{
		perSecond: float64(count) / took,
		// Each put is synced by three nodes.
		perSync: float64(count) * cluster.Size / syncs,
		groups:  float64(last.Synced-first.Synced) / syncs,
	}, nil
}

// A load is what the clients of one measurement share.
type load struct {
	puts, refused int64
	isOver        int32
}

// put puts one key after the other at a node, without numbers, until the load is over.
func (l *load) put(address string, i int) {
	user := &http.Client{Timeout: patience, Transport: &http.Transport{}}
	value := strings.Repeat("v", valueSize)
	for n := 0; atomic.LoadInt32(&l.isOver) == 0; n++ {
		key := fmt.Sprintf("http://%s/keys/%d", address, (i*7919+n*104729)%keys)
		request, err := http.NewRequest(http.MethodPut, key, strings.NewReader(value))
		if err != nil {
			atomic.AddInt64(&l.refused, 1)
			return
		}
		response, err := user.Do(request)
		if err != nil || response.StatusCode != http.StatusNoContent {
			atomic.AddInt64(&l.refused, 1)
			return
		}
		response.Body.Close()
		atomic.AddInt64(&l.puts, 1)
	}
}

// statsOf answers what all nodes counted.
func statsOf(ctx context.Context, c *cluster.Cluster) (sum node.Stats) {
	_, _ = c.Await(ctx, "answers", func(all []node.Status) bool {
		for _, status := range all {
			sum.Syncs += status.Stats.Syncs
			sum.Synced += status.Stats.Synced
		}
		return true
	})
	return
}

// print prints the middle and the best of the turns, a line for each store and number of groups.
func (b *bench) print() {
	fmt.Printf("\nputs a second, the middle of %d turns (the best)\n", b.turns)
	for _, groups := range b.groups {
		for _, store := range b.stores {
			line := fmt.Sprintf("%-8s %2d groups", store, groups)
			for _, clients := range b.clients {
				all := b.results[setting{store, groups, clients}]
				sort.Slice(all, func(i, j int) bool { return all[i].perSecond < all[j].perSecond })
				line += fmt.Sprintf("  %d clients: %.0f (%.0f)", clients,
					all[len(all)/2].perSecond, all[len(all)-1].perSecond)
			}
			fmt.Println(line)
		}
	}
}
