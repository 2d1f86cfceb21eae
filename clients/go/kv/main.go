// Kv is a replicated key store: nodes that keep all their Raft groups in one log each, and a client
// of them. `kv --help` tells its commands.
package main

import (
	"errors"
	"flag"
	"fmt"
	"os"
)

const usage = `kv is a key store on several nodes, over etcd's raft and raftlog.

  kv serve --id N --peers A,B,C --folder FOLDER [--begin]   runs a node
  kv put KEY VALUE      keeps a value
  kv get KEY            prints it
  kv delete KEY         drops it
  kv status [--groups]  tells of each node, and of each of its groups

kv COMMAND --help tells the settings of a command. The client asks the nodes of --nodes, or of the
variable KV_NODES, and else 127.0.0.1:8101 to 8103; as long as --timeout or KV_TIMEOUT says, else 10s.

Statuses: 0 done, 1 failed, 2 wrong arguments, 3 the key has no value.
`

// Exit statuses.
const (
	failed = 1
	wrong  = 2
	absent = 3
)

// A usageError is told with status 2.
type usageError struct{ error }

var errAbsent = errors.New("the key has no value")

func main() {
	if len(os.Args) < 2 {
		fmt.Fprint(os.Stderr, usage)
		os.Exit(wrong)
	}
	err := run(os.Args[1], os.Args[2:])
	var misused usageError
	switch {
	case err == nil, errors.Is(err, flag.ErrHelp):
	case errors.Is(err, errAbsent):
		fmt.Fprintln(os.Stderr, "kv:", err)
		os.Exit(absent)
	case errors.As(err, &misused):
		fmt.Fprintln(os.Stderr, "kv:", err)
		os.Exit(wrong)
	default:
		fmt.Fprintln(os.Stderr, "kv:", err)
		os.Exit(failed)
	}
}

func run(command string, arguments []string) error {
	switch command {
	case "serve":
		return serve(arguments)
	case "put", "get", "delete", "status":
		return ask(command, arguments)
	case "--help", "-h", "help":
		fmt.Print(usage)
		return nil
	}
	return usageError{fmt.Errorf("there is no command %s; kv --help tells them", command)}
}

// parse reads flags; what is wrong is told once, by main.
func parse(flags *flag.FlagSet, arguments []string) error {
	flags.SetOutput(os.Stderr)
	err := flags.Parse(arguments)
	if err != nil && !errors.Is(err, flag.ErrHelp) {
		return usageError{err}
	}
	return err
}
