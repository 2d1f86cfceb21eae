// Package server answers the users of a node by HTTP:
//
//	PUT    /keys/KEY           keeps the body as the value of a key
//	GET    /keys/KEY           answers it, as it stands at a moment since the request
//	DELETE /keys/KEY           drops it
//	POST   /sessions?group=N   begins a session in a group
//	GET    /status             tells how the node stands, as JSON
//	GET    /metrics            tells what the node and its log count, for Prometheus
//	GET    /                   a page that draws all nodes, by their /status
//
// A write with the headers Kv-Session and Kv-Number acts once, however often it is sent.
package server

import (
	"context"
	"errors"
	"fmt"
	"io"
	"net/http"
	"net/url"
	"strconv"
	"strings"
	"time"

	"kv/machine"
	"kv/node"
)

const (
	maxKey   = 1 << 12
	maxValue = 1 << 20
)

// Headers of a numbered write, and of the answers to writes: the index of the entry by which a
// write acted, and whether the key had a value before.
const (
	SessionHeader = "Kv-Session"
	NumberHeader  = "Kv-Number"
	IndexHeader   = "Kv-Index"
	FoundHeader   = "Kv-Found"
)

// A Server answers by a node of so many groups, within a time. Log is nil for a store that isn't a raftlog. Nodes are those
// that the page at / draws.
type Server struct {
	Node    *node.Node
	Log     Log
	Nodes   []Address
	Groups  uint64
	Timeout time.Duration
}

// A refusal is an answer other than success, with its text.
type refusal struct {
	status int
	text   string
}

func (r *refusal) Error() string { return r.text }

func refuse(status int, format string, arguments ...interface{}) error {
	return &refusal{status, fmt.Sprintf(format, arguments...)}
}

// ServeHTTP implements http.Handler.
func (s *Server) ServeHTTP(w http.ResponseWriter, r *http.Request) {
	ctx, cancel := context.WithTimeout(r.Context(), s.Timeout)
	defer cancel()
	err := s.serve(ctx, w, r)
	if err == nil {
		return
	}
	status := statusOf(err)
	w.Header().Set("Content-Type", "text/plain; charset=utf-8")
	w.WriteHeader(status)
	fmt.Fprintln(w, err)
}

// statusOf says by its number what a client may do: after 503 nothing was written, and after 504
// the same write is to be sent again with its number.
func statusOf(err error) int {
	var refused *refusal
	switch {
	case errors.As(err, &refused):
		return refused.status
	case errors.Is(err, node.ErrNoGroup):
		return http.StatusNotFound
	case errors.Is(err, node.ErrNoLeader), errors.Is(err, node.ErrNoRead):
		return http.StatusServiceUnavailable
	}
	return http.StatusGatewayTimeout
}

func (s *Server) serve(ctx context.Context, w http.ResponseWriter, r *http.Request) error {
	path := r.URL.EscapedPath()
	switch {
	case strings.HasPrefix(path, "/keys/"):
		key, err := keyOf(strings.TrimPrefix(path, "/keys/"))
		if err != nil {
			return err
		}
		return s.serveKey(ctx, w, r, key)
	case path == "/sessions":
		if r.Method != http.MethodPost {
			return refuse(http.StatusMethodNotAllowed, "/sessions takes POST")
		}
		return s.begin(ctx, w, r)
	}
	return s.serveReport(ctx, w, r)
}

// serveReport answers with what a node tells of itself.
func (s *Server) serveReport(ctx context.Context, w http.ResponseWriter, r *http.Request) error {
	path := r.URL.EscapedPath()
	file, isPage := pageFiles[path]
	switch {
	case !isPage && path != "/status" && path != "/metrics":
		return refuse(http.StatusNotFound, "there are /keys/KEY, /sessions, /status, /metrics and /")
	case r.Method != http.MethodGet:
		return refuse(http.StatusMethodNotAllowed, "%s takes GET", path)
	case isPage:
		return servePage(w, r, file)
	case path == "/metrics":
		return s.tellMetrics(ctx, w)
	}
	return s.tellStatus(ctx, w)
}

func keyOf(escaped string) (string, error) {
	key, err := url.PathUnescape(escaped)
	if err != nil {
		return "", refuse(http.StatusBadRequest, "the key can't be read: %v", err)
	}
	if key == "" || len(key) > maxKey {
		return "", refuse(http.StatusBadRequest, "a key has 1 to %d bytes", maxKey)
	}
	return key, nil
}

func (s *Server) serveKey(
	ctx context.Context, w http.ResponseWriter, r *http.Request, key string,
) error {
	command := machine.Command{Key: key}
	switch r.Method {
	case http.MethodGet:
		return s.get(ctx, w, key)
	case http.MethodPut:
		value, err := io.ReadAll(http.MaxBytesReader(w, r.Body, maxValue))
		if err != nil && len(value) >= maxValue {
			return refuse(http.StatusRequestEntityTooLarge, "a value has at most %d bytes", maxValue)
		}
		if err != nil {
			return refuse(http.StatusBadRequest, "the value didn't come whole: %v", err)
		}
		command.Kind, command.Value = machine.Put, value
	case http.MethodDelete:
		command.Kind = machine.Delete
	default:
		return refuse(http.StatusMethodNotAllowed, "/keys/KEY takes GET, PUT and DELETE")
	}
	var err error
	if command.Session, err = number(r, SessionHeader); err != nil {
		return err
	}
	if command.Number, err = number(r, NumberHeader); err != nil {
		return err
	}
	if (command.Session == 0) != (command.Number == 0) {
		return refuse(http.StatusBadRequest, "%s and %s go together", SessionHeader, NumberHeader)
	}
	return s.write(ctx, w, command)
}

// number reads a number above 0 from a header, which may be missing.
func number(r *http.Request, header string) (uint64, error) {
	text := r.Header.Get(header)
	if text == "" {
		return 0, nil
	}
	n, err := strconv.ParseUint(text, 10, 64)
	if err != nil || n == 0 {
		return 0, refuse(http.StatusBadRequest, "%s is a number above 0", header)
	}
	return n, nil
}

func (s *Server) get(ctx context.Context, w http.ResponseWriter, key string) error {
	value, found, err := s.Node.Read(ctx, node.Group(key, s.Groups), key)
	if err != nil {
		return err
	}
	if !found {
		return refuse(http.StatusNotFound, "the key has no value")
	}
	w.Header().Set("Content-Type", "application/octet-stream")
	_, err = w.Write(value)
	return ignored(err)
}

// ignored passes over that a client went away while it was answered.
func ignored(error) error { return nil }

func (s *Server) write(ctx context.Context, w http.ResponseWriter, c machine.Command) error {
	result, err := s.Node.Write(ctx, node.Group(c.Key, s.Groups), c)
	if err != nil {
		return err
	}
	switch result.Outcome {
	case machine.Stale:
		return refuse(http.StatusConflict, "number %d comes after a later one of its session",
			c.Number)
	case machine.NoSession:
		return refuse(http.StatusGone, "there is no session %d in group %d: it never began, or "+
			"%d others were used since", c.Session, node.Group(c.Key, s.Groups), machine.MaxSessions)
	}
	w.Header().Set(IndexHeader, fmt.Sprint(result.Index))
	w.Header().Set(FoundHeader, fmt.Sprint(result.Found))
	w.WriteHeader(http.StatusNoContent)
	return nil
}

func (s *Server) begin(ctx context.Context, w http.ResponseWriter, r *http.Request) error {
	group, err := strconv.ParseUint(r.URL.Query().Get("group"), 10, 64)
	if err != nil {
		return refuse(http.StatusBadRequest, "/sessions?group=N: a group is a number")
	}
	result, err := s.Node.Write(ctx, group, machine.Command{Kind: machine.Begin})
	if err != nil {
		return err
	}
	_, err = fmt.Fprintln(w, result.Index)
	return ignored(err)
}
