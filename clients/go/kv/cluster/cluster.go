// Package cluster runs three nodes of kv as processes of their own, for tests and figures.
package cluster

import (
	"context"
	"fmt"
	"math/rand"
	"net"
	"os"
	"os/exec"
	"path/filepath"
	"strings"
	"sync"
	"syscall"
	"time"

	"kv/client"
	"kv/node"
)

// Size is how many nodes there are.
const Size = 3

// Options say what nodes are to be run.
type Options struct {
	// The built program, and the folder in which each node has one.
	Program, Folder string
	Groups          uint64
	// More arguments of `kv serve`.
	Arguments []string
	// Whether what they send each other goes through Links.
	IsLinked bool
}

// A Cluster is three nodes, each of which runs or doesn't. Nodes are numbered 0 to 2.
type Cluster struct {
	options Options
	// Where they answer HTTP, and where they listen for each other.
	HTTP, listen []string
	Links        *Links

	mutex sync.Mutex
	nodes [Size]process
}

type process struct {
	command  *exec.Cmd
	hasBegun bool
	// Closed once it has ended.
	ended chan struct{}
}

// New chooses ports. Nothing runs yet.
func New(options Options) (*Cluster, error) {
	c := &Cluster{options: options}
	ports, err := freePorts(2 * Size)
	if err != nil {
		return nil, err
	}
	c.HTTP, c.listen = ports[:Size], ports[Size:]
	if options.IsLinked {
		c.Links, err = newLinks(c.listen)
	}
	return c, err
}

// freePorts answers addresses that were free a moment ago. The system gives connections none of these
// ports, so a node that was away finds its own free.
func freePorts(count int) (addresses []string, err error) {
	random := rand.New(rand.NewSource(time.Now().UnixNano()))
	for tries := 100 * count; len(addresses) < count; tries-- {
		address := fmt.Sprint("127.0.0.1:", 10000+random.Intn(20000))
		listener, err := net.Listen("tcp", address)
		if err == nil {
			defer listener.Close()
			addresses = append(addresses, address)
		} else if tries == 0 {
			return nil, err
		}
	}
	return
}

// Folder answers the folder of a node.
func (c *Cluster) Folder(i int) string {
	return filepath.Join(c.options.Folder, fmt.Sprint("node-", i+1))
}

// LogFolder answers the folder of a node's log.
func (c *Cluster) LogFolder(i int) string { return filepath.Join(c.Folder(i), "log") }

// Said answers the end of what a node printed.
func (c *Cluster) Said(i int) string {
	text, _ := os.ReadFile(filepath.Join(c.Folder(i), "said"))
	if len(text) > 1000 {
		text = text[len(text)-1000:]
	}
	return strings.TrimSpace(string(text))
}

// Start starts a node.
func (c *Cluster) Start(i int) error {
	c.mutex.Lock()
	defer c.mutex.Unlock()
	if err := os.MkdirAll(c.Folder(i), 0777); err != nil {
		return err
	}
	flags := os.O_CREATE | os.O_APPEND | os.O_WRONLY
	said, err := os.OpenFile(filepath.Join(c.Folder(i), "said"), flags, 0666)
	if err != nil {
		return err
	}
	defer said.Close()
	command := exec.Command(c.options.Program, c.arguments(i)...)
	command.Stdout, command.Stderr = said, said
	command.SysProcAttr = &syscall.SysProcAttr{Pdeathsig: syscall.SIGKILL}
	if err := command.Start(); err != nil {
		return err
	}
	ended := make(chan struct{})
	go func() {
		_ = command.Wait()
		close(ended)
	}()
	c.nodes[i] = process{command, true, ended}
	return nil
}

func (c *Cluster) arguments(i int) []string {
	peers := append([]string(nil), c.listen...)
	if c.Links != nil {
		peers = c.Links.seenBy(i)
	}
	arguments := []string{
		"serve", "--id", fmt.Sprint(i + 1), "--peers", strings.Join(peers, ","),
		"--listen", c.listen[i], "--http", c.HTTP[i], "--folder", c.LogFolder(i),
		"--groups", fmt.Sprint(c.options.Groups),
	}
	if !c.nodes[i].hasBegun {
		arguments = append(arguments, "--begin")
	}
	return append(arguments, c.options.Arguments...)
}

// StartAll starts all nodes, and waits until each of their groups has a leader.
func (c *Cluster) StartAll(ctx context.Context) error {
	for i := 0; i < Size; i++ {
		if err := c.Start(i); err != nil {
			return err
		}
	}
	_, err := c.Await(ctx, "a leader in each group", func(all []node.Status) bool {
		for _, status := range all {
			for _, g := range status.Groups {
				if g.Leader == 0 {
					return false
				}
			}
		}
		return true
	})
	return err
}

// Await asks all nodes until their answers are as they should be.
func (c *Cluster) Await(
	ctx context.Context, what string, is func([]node.Status) bool,
) ([]node.Status, error) {
	for {
		var all []node.Status
		for _, address := range c.HTTP {
			if status, err := client.Status(ctx, address); err == nil {
				all = append(all, status)
			}
		}
		if len(all) == Size && is(all) {
			return all, nil
		}
		select {
		case <-ctx.Done():
			return all, fmt.Errorf("%s: not in time, %d nodes answer", what, len(all))
		case <-time.After(50 * time.Millisecond):
		}
	}
}

// Signal sends a node a signal.
func (c *Cluster) Signal(i int, signal syscall.Signal) {
	c.mutex.Lock()
	defer c.mutex.Unlock()
	if command := c.nodes[i].command; command != nil {
		_ = command.Process.Signal(signal)
	}
}

// End sends a node a signal, and waits at most so long until it has ended.
func (c *Cluster) End(i int, signal syscall.Signal, within time.Duration) bool {
	c.Signal(i, signal)
	return c.HasEnded(i, within)
}

// HasEnded says whether a node has ended, or does so within a time.
func (c *Cluster) HasEnded(i int, within time.Duration) bool {
	c.mutex.Lock()
	ended := c.nodes[i].ended
	c.mutex.Unlock()
	if ended == nil {
		return true
	}
	select {
	case <-ended:
		return true
	case <-time.After(within):
		return false
	}
}

// KillAll ends what still runs.
func (c *Cluster) KillAll() {
	for i := range c.nodes {
		c.Signal(i, syscall.SIGCONT)
		c.End(i, syscall.SIGKILL, 10*time.Second)
	}
	if c.Links != nil {
		c.Links.close()
	}
}
