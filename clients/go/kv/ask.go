package main

import (
	"context"
	"flag"
	"fmt"
	"os"
	"strings"
	"time"

	"kv/client"
	"kv/node"
)

// ask carries out a command of a user.
func ask(command string, arguments []string) error {
	flags := flag.NewFlagSet("kv "+command, flag.ContinueOnError)
	nodes := flags.String("nodes", nodesOf(os.Getenv("KV_NODES")), "where the nodes answer HTTP")
	timeout := flags.Duration("timeout", timeoutOf(os.Getenv("KV_TIMEOUT")),
		"how long the nodes are asked")
	isLong := new(bool)
	if command == "status" {
		flags.BoolVar(isLong, "groups", false, "a line for each group")
	}
	if err := parse(flags, arguments); err != nil {
		return err
	}
	wanted := map[string]int{"put": 2, "get": 1, "delete": 1, "status": 0}[command]
	if flags.NArg() != wanted {
		return usageError{fmt.Errorf("kv %s takes %d arguments behind its settings", command, wanted)}
	}
	ctx, cancel := context.WithTimeout(context.Background(), *timeout)
	defer cancel()
	list := strings.Split(*nodes, ",")
	if command == "status" {
		return tellStatus(ctx, list, *isLong)
	}
	groups, err := client.Groups(ctx, list)
	if err != nil {
		return err
	}
	return change(ctx, client.New(list, groups, 0), command, flags.Args())
}

func nodesOf(nodes string) string {
	if nodes == "" {
		return "127.0.0.1:8101,127.0.0.1:8102,127.0.0.1:8103"
	}
	return nodes
}

func timeoutOf(text string) time.Duration {
	if timeout, err := time.ParseDuration(text); err == nil {
		return timeout
	}
	return 10 * time.Second
}

func change(ctx context.Context, c *client.Client, command string, arguments []string) error {
	key := arguments[0]
	switch command {
	case "put":
		return c.Put(ctx, key, []byte(arguments[1]))
	case "delete":
		found, err := c.Delete(ctx, key)
		if err == nil && !found {
			return errAbsent
		}
		return err
	}
	value, found, err := c.Get(ctx, key)
	if err == nil && !found {
		return errAbsent
	}
	if err == nil {
		fmt.Printf("%s\n", value)
	}
	return err
}

// tellStatus prints a line for each node, and where that is asked one for each of its groups.
func tellStatus(ctx context.Context, nodes []string, isLong bool) error {
	answered := 0
	for _, address := range nodes {
		status, err := client.Status(ctx, address)
		if err != nil {
			fmt.Printf("%s: no answer\n", address)
			continue
		}
		answered++
		tellNode(address, status)
		for _, g := range status.Groups {
			if isLong {
				fmt.Printf("  group %d: leader %d in term %d, applied %d, entries %d to %d, %d keys\n",
					g.Group, g.Leader, g.Term, g.Applied, g.First, g.Last, g.Keys)
			}
		}
	}
	if answered == 0 {
		return fmt.Errorf("none of %s answers", strings.Join(nodes, ", "))
	}
	return nil
}

func tellNode(address string, status node.Status) {
	led, without, behind, keys := 0, 0, uint64(0), 0
	for _, g := range status.Groups {
		switch g.Leader {
		case status.Node:
			led++
		case 0:
			without++
		}
		behind += g.Commit - g.Applied
		keys += g.Keys
	}
	fmt.Printf("%s: node %d leads %d of %d groups, %d without a leader; %d keys, %d entries to "+
		"apply; %d rounds saved, %d synced\n", address, status.Node, led, len(status.Groups), without,
		keys, behind, status.Stats.Rounds, status.Stats.Syncs)
}
