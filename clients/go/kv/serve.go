package main

import (
	"bytes"
	"context"
	"encoding/json"
	"flag"
	"fmt"
	"log"
	"net"
	"net/http"
	"os"
	"os/signal"
	"strings"
	"syscall"
	"time"

	"kv/node"
	"kv/server"
	"kv/storage"
	"kv/storage/raftlogstore"
	"kv/transport"
)

// settings are those of `kv serve`.
type settings struct {
	id, groups                      uint64
	peers, listen, http, nodes      string
	folder, store, log              string
	begin                           bool
	snapshotEntries, keepEntries    uint64
	purgeEvery, timeout, shutdownIn time.Duration
}

func readSettings(arguments []string) (settings, error) {
	s := settings{shutdownIn: 2 * time.Second}
	flags := flag.NewFlagSet("kv serve", flag.ContinueOnError)
	flags.Uint64Var(&s.id, "id", 0, "which of the peers this node is, 1 for the first")
	flags.StringVar(&s.peers, "peers", "", "where the nodes listen for each other, in their order")
	flags.StringVar(&s.listen, "listen", "", "where this node listens, if not as --peers says")
	flags.StringVar(&s.http, "http", "127.0.0.1:8101", "where it answers HTTP")
	flags.StringVar(&s.nodes, "nodes", "",
		"where all nodes answer HTTP, in their order, for the page at /; if left out, it draws this node")
	flags.StringVar(&s.folder, "folder", "", "the folder of its log")
	flags.BoolVar(&s.begin, "begin", false, "begin a new node in a folder without one")
	flags.Uint64Var(&s.groups, "groups", 1, "how many Raft groups share the log")
	flags.StringVar(&s.store, "store", "raftlog",
		"raftlog, or, in a build with the tag compare, wal or bolt")
	flags.StringVar(&s.log, "log", raftlogstore.Settings, "the log's settings, as TOML")
	flags.Uint64Var(&s.snapshotEntries, "snapshot-entries", 10000,
		"how many entries a group applies between two snapshots")
	flags.Uint64Var(&s.keepEntries, "keep-entries", 2000,
		"how many entries are kept behind a snapshot, for nodes that are a little behind")
	flags.DurationVar(&s.purgeEvery, "purge-every", 10*time.Second, "the time between two purges")
	flags.DurationVar(&s.timeout, "timeout", 5*time.Second, "how long a request may take")
	if err := parse(flags, arguments); err != nil {
		return s, err
	}
	peers := strings.Split(s.peers, ",")
	switch {
	case flags.NArg() > 0:
		return s, usageError{fmt.Errorf("kv serve takes settings alone, not %s", flags.Arg(0))}
	case s.peers == "" || s.folder == "":
		return s, usageError{fmt.Errorf("kv serve needs --id, --peers and --folder")}
	case s.id == 0 || s.id > uint64(len(peers)):
		return s, usageError{fmt.Errorf("--id is 1 to %d, by the place in --peers", len(peers))}
	case s.nodes != "" && len(strings.Split(s.nodes, ",")) != len(peers):
		return s, usageError{fmt.Errorf("--nodes has as many addresses as --peers")}
	case s.groups == 0 || s.snapshotEntries == 0 || s.purgeEvery <= 0:
		return s, usageError{fmt.Errorf("--groups, --snapshot-entries and --purge-every are above 0")}
	}
	if s.listen == "" {
		s.listen = peers[s.id-1]
	}
	return s, nil
}

func (s settings) addresses() map[uint64]string {
	addresses := map[uint64]string{}
	for i, address := range strings.Split(s.peers, ",") {
		addresses[uint64(i)+1] = address
	}
	return addresses
}

// shown are the nodes that the page at / draws.
func (s settings) shown() []server.Address {
	if s.nodes == "" {
		return []server.Address{{Node: s.id, HTTP: s.http}}
	}
	var all []server.Address
	for i, address := range strings.Split(s.nodes, ",") {
		all = append(all, server.Address{Node: uint64(i) + 1, HTTP: address})
	}
	return all
}

// stores are those of --store, of which compare.go has more.
var stores = map[string]func(settings) (storage.Store, error){
	"raftlog": func(s settings) (storage.Store, error) {
		return raftlogstore.Open(s.folder, s.log)
	},
}

func openStore(s settings) (storage.Store, error) {
	open := stores[s.store]
	if open == nil {
		return nil, usageError{fmt.Errorf("there is no store %s in this build", s.store)}
	}
	return open(s)
}

// An identity tells whose a folder is. It never changes.
type identity struct{ Node, Nodes, Groups uint64 }

// identify sees to it that the folder is this node's.
func identify(s settings, store storage.Store) error {
	wanted := identity{s.id, uint64(len(s.addresses())), s.groups}
	text, err := json.Marshal(wanted)
	if err != nil {
		return err
	}
	kept, err := store.Identity()
	switch {
	case err != nil:
		return err
	case len(kept) == 0 && !s.begin:
		return fmt.Errorf("there is no node in %s; --begin makes a new one, but a node that lost "+
			"its folder mustn't begin again, since the others count on what it kept", s.folder)
	case len(kept) == 0:
		return store.SetIdentity(text)
	case s.begin:
		return fmt.Errorf("there is a node in %s already; start it without --begin", s.folder)
	case !bytes.Equal(kept, text):
		return fmt.Errorf("the node in %s is %s, and the settings ask for %s", s.folder, kept, text)
	}
	return nil
}

func serve(arguments []string) error {
	s, err := readSettings(arguments)
	if err != nil {
		return err
	}
	store, err := openStore(s)
	if err != nil {
		return err
	}
	if err = identify(s, store); err == nil {
		logger := log.New(os.Stderr, fmt.Sprintf("kv %d: ", s.id), log.LstdFlags|log.Lmsgprefix)
		err = runNode(s, store, logger)
	}
	if failure := store.Close(); err == nil {
		err = failure
	}
	return err
}

func runNode(s settings, store storage.Store, logger *log.Logger) error {
	n, err := node.New(node.Config{
		ID:              s.id,
		Peers:           s.addresses(),
		Groups:          s.groups,
		SnapshotEntries: s.snapshotEntries,
		KeepEntries:     s.keepEntries,
		PurgeEvery:      s.purgeEvery,
	}, store)
	if err != nil {
		return err
	}
	listener, err := net.Listen("tcp", s.http)
	if err != nil {
		return err
	}
	defer listener.Close()
	carrier, err := transport.Start(transport.Config{
		Node:    s.id,
		Groups:  s.groups,
		Address: s.listen,
		Peers:   s.addresses(),
		Log:     logger,
	}, n)
	if err != nil {
		return err
	}
	defer carrier.Close()
	n.SetTransport(carrier)
	logger.Printf("answers at http://%s, store %s in %s, %d groups", s.http, s.store, s.folder,
		s.groups)
	counts, _ := store.(server.Log)
	return answer(s, n, counts, listener)
}

// answer answers users until a signal comes, or the store fails.
func answer(s settings, n *node.Node, counts server.Log, listener net.Listener) error {
	users := &http.Server{
		Handler: &server.Server{
			Node: n, Log: counts, Nodes: s.shown(), Groups: s.groups, Timeout: s.timeout,
		},
		ReadHeaderTimeout: s.timeout,
	}
	go users.Serve(listener)
	defer users.Close()
	if err := n.Run(untilSignal(users, s.shutdownIn)); err != nil {
		return fmt.Errorf("the store failed and the node stops: %w; what it answered is kept: see "+
			"to %s, as for room on its disk, and start the node again", err, s.folder)
	}
	return nil
}

// untilSignal answers a context that ends with an interrupt, once the users are answered.
func untilSignal(users *http.Server, shutdownIn time.Duration) context.Context {
	ctx, cancel := context.WithCancel(context.Background())
	signals := make(chan os.Signal, 1)
	signal.Notify(signals, os.Interrupt, syscall.SIGTERM)
	go func() {
		<-signals
		within, done := context.WithTimeout(ctx, shutdownIn)
		defer done()
		_ = users.Shutdown(within)
		cancel()
	}()
	return ctx
}
