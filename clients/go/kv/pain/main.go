// Pain runs three nodes of kv as processes, with clients that record each call, while nodes are
// killed, stopped and made to pause, connections are cut, and a disk is filled. Then it checks that
// what the clients saw of each key is linearizable, which no lost write, no write that acted twice
// and no old read is, and that all nodes have equal logs and states.
//
//	pain --program KV [--seconds 60] [--clients 8] [--groups 4] [--seed 1] [--folder FOLDER]
//
// It ends with 0, or with 1 and what went wrong; then its folder is kept.
package main

import (
	"context"
	"flag"
	"fmt"
	"math/rand"
	"os"
	"os/signal"
	"path/filepath"
	"sync"
	"syscall"
	"time"

	"kv/cluster"
	"kv/node"
)

type settings struct {
	program, folder          string
	seconds, clients, groups int
	seed                     int64
}

// Small files and few entries between two snapshots, so that all of it happens often.
var arguments = []string{
	"--snapshot-entries", "100", "--keep-entries", "20", "--purge-every", "500ms",
	"--log", "target-file-size = \"256KB\"\npurge-threshold = \"1MB\"\n",
}

func main() {
	var s settings
	flag.StringVar(&s.program, "program", "", "the built program kv")
	flag.StringVar(&s.folder, "folder", "", "where the nodes stand, else a new one in /tmp")
	flag.IntVar(&s.seconds, "seconds", 60, "how long it hurts")
	flag.IntVar(&s.clients, "clients", 8, "how many clients there are")
	flag.IntVar(&s.groups, "groups", 4, "how many Raft groups there are")
	flag.Int64Var(&s.seed, "seed", time.Now().UnixNano(), "chooses what happens when")
	flag.Parse()
	if s.program == "" || flag.NArg() > 0 || s.seconds < 1 || s.clients < 1 || s.groups < 1 {
		fmt.Fprintln(os.Stderr, "pain: --program is wanted, and numbers above 0; see --help")
		os.Exit(2)
	}
	if err := run(s); err != nil {
		fmt.Fprintln(os.Stderr, "pain:", err)
		os.Exit(1)
	}
}

func run(s settings) (err error) {
	if s.folder == "" {
		if s.folder, err = os.MkdirTemp("", "kv-pain-"); err != nil {
			return err
		}
	}
	program, err := filepath.Abs(s.program)
	if err != nil {
		return err
	}
	c, err := cluster.New(cluster.Options{
		Program:   program,
		Folder:    s.folder,
		Groups:    uint64(s.groups),
		Arguments: arguments,
		IsLinked:  true,
	})
	if err != nil {
		return err
	}
	disk := mountDisk(c.LogFolder(fullNode))
	defer func() {
		c.KillAll()
		disk.unmount()
		if err != nil {
			err = fmt.Errorf("%w (seed %d, %s is kept)", err, s.seed, s.folder)
		} else {
			os.RemoveAll(s.folder)
		}
	}()
	ctx, stop := signal.NotifyContext(context.Background(), os.Interrupt, syscall.SIGTERM)
	defer stop()
	fmt.Printf("%d s with %d clients, %d groups, seed %d\n", s.seconds, s.clients, s.groups, s.seed)
	history, err := hurt(ctx, s, c, disk)
	if err != nil {
		return err
	}
	return judge(ctx, s, c, history)
}

// hurt lets clients call, and things go wrong, as long as the settings say.
func hurt(ctx context.Context, s settings, c *cluster.Cluster, disk *disk) (*history, error) {
	starting, cancel := context.WithTimeout(ctx, 2*time.Minute)
	defer cancel()
	if err := c.StartAll(starting); err != nil {
		return nil, err
	}
	h := newHistory()
	calling, stop := context.WithTimeout(ctx, time.Duration(s.seconds)*time.Second)
	defer stop()
	var clients sync.WaitGroup
	for i := 0; i < s.clients; i++ {
		clients.Add(1)
		go func(i int) {
			defer clients.Done()
			h.call(calling, c.HTTP, uint64(s.groups), i, rand.New(rand.NewSource(s.seed+int64(i))))
		}(i)
	}
	f := &faults{
		cluster: c,
		disk:    disk,
		random:  rand.New(rand.NewSource(s.seed - 1)),
		counts:  map[string]int{},
	}
	go h.report(calling, f)
	err := f.run(calling)
	stop()
	clients.Wait()
	fmt.Printf("%s; %s\n", h, f)
	return h, err
}

// judge waits until all nodes have the same, reads all keys at each of them, and checks.
func judge(ctx context.Context, s settings, c *cluster.Cluster, h *history) error {
	ctx, cancel := context.WithTimeout(ctx, 2*time.Minute)
	defer cancel()
	if err := h.readAll(ctx, c.HTTP, uint64(s.groups)); err != nil {
		return err
	}
	all, err := c.Await(ctx, "equal nodes", areEqual)
	if err != nil {
		return err
	}
	var stats node.Stats
	for _, status := range all {
		stats.Rounds += status.Stats.Rounds
		stats.Changes += status.Stats.Changes
		stats.Snapshots += status.Stats.Snapshots
		stats.Purges += status.Stats.Purges
	}
	fmt.Printf("since their last starts the nodes saved %d changes in %d rounds, made %d snapshots "+
		"and purged %d times\n", stats.Changes, stats.Rounds, stats.Snapshots, stats.Purges)
	for i := 0; i < cluster.Size; i++ {
		if !c.End(i, syscall.SIGTERM, endsWithin) {
			return fmt.Errorf("node %d doesn't stop", i+1)
		}
	}
	if err := h.check(); err != nil {
		return err
	}
	return compareLogs(c, uint64(s.groups))
}

// areEqual says whether all nodes have applied all entries, in each group.
func areEqual(all []node.Status) bool {
	for _, status := range all {
		for i, g := range status.Groups {
			first := all[0].Groups[i]
			if g.Applied != g.Last || g.Commit != g.Last || g.Last != first.Last ||
				g.Leader == 0 || g.Term != first.Term {
				return false
			}
		}
	}
	return true
}
