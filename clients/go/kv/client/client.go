// Package client puts and gets keys by any of the nodes. What isn't answered it sends again, to the
// next node, with the same number, so that each write acts once.
package client

import (
	"bytes"
	"context"
	"errors"
	"fmt"
	"io"
	"net/http"
	"net/url"
	"strconv"
	"strings"
	"time"

	"kv/node"
	"kv/server"
)

const (
	attempt = 2 * time.Second
	pause   = 20 * time.Millisecond
)

// ErrGone says that a session was dropped by the nodes while a write was sent again: the write may
// have acted, or not.
var ErrGone = errors.New("the session is gone, the write may or may not have acted")

// A Client makes one call at a time.
type Client struct {
	nodes    []string
	at       int
	groups   uint64
	http     *http.Client
	sessions map[uint64]*session
	again    int
}

// A session of this client in a group, and the number of its last write.
type session struct{ id, number uint64 }

// New makes a client of nodes, as 127.0.0.1:8101, which have so many groups. It asks the node at
// a place among them first.
func New(nodes []string, groups uint64, first int) *Client {
	return &Client{
		nodes:    nodes,
		at:       first % len(nodes),
		groups:   groups,
		http:     &http.Client{Timeout: attempt, Transport: &http.Transport{}},
		sessions: map[uint64]*session{},
	}
}

// Again answers how often a call was sent again.
func (c *Client) Again() int { return c.again }

// Put keeps a value.
func (c *Client) Put(ctx context.Context, key string, value []byte) error {
	_, err := c.write(ctx, http.MethodPut, key, value)
	return err
}

// Delete drops a key's value, and answers whether there was one.
func (c *Client) Delete(ctx context.Context, key string) (found bool, err error) {
	answer, err := c.write(ctx, http.MethodDelete, key, nil)
	return answer.header.Get(server.FoundHeader) == "true", err
}

// Get answers a key's value.
func (c *Client) Get(ctx context.Context, key string) (value []byte, found bool, err error) {
	answer, err := c.call(ctx, request{method: http.MethodGet, path: keyPath(key)})
	return answer.body, answer.status == http.StatusOK, err
}

func keyPath(key string) string { return "/keys/" + url.PathEscape(key) }

func (c *Client) write(
	ctx context.Context, method, key string, value []byte,
) (answer answer, err error) {
	group := node.Group(key, c.groups)
	s := c.sessions[group]
	if s == nil {
		if s, err = c.begin(ctx, group); err != nil {
			return
		}
		c.sessions[group] = s
	}
	s.number++
	request := request{method: method, path: keyPath(key), body: value, session: *s}
	answer, err = c.call(ctx, request)
	if err == nil && answer.status == http.StatusGone {
		delete(c.sessions, group)
		err = ErrGone
	}
	return
}

func (c *Client) begin(ctx context.Context, group uint64) (*session, error) {
	path := fmt.Sprint("/sessions?group=", group)
	answer, err := c.call(ctx, request{method: http.MethodPost, path: path})
	if err != nil {
		return nil, err
	}
	id, err := strconv.ParseUint(strings.TrimSpace(string(answer.body)), 10, 64)
	if err != nil {
		return nil, fmt.Errorf("no session was begun: %s", answer.body)
	}
	return &session{id: id}, nil
}

type request struct {
	method, path string
	body         []byte
	session      session
}

type answer struct {
	status int
	header http.Header
	body   []byte
}

// call sends a request again until a node answers it, or the context ends.
func (c *Client) call(ctx context.Context, r request) (answer, error) {
	for {
		a, err := c.try(ctx, r)
		if err == nil && a.status < 500 {
			if a.status >= 400 && a.status != http.StatusNotFound && a.status != http.StatusGone {
				err = fmt.Errorf("%s %s: %s", r.method, r.path, bytes.TrimSpace(a.body))
			}
			return a, err
		}
		if err == nil {
			err = fmt.Errorf("%s: %s", c.nodes[c.at], bytes.TrimSpace(a.body))
		}
		c.at = (c.at + 1) % len(c.nodes)
		c.again++
		select {
		case <-ctx.Done():
			return answer{}, fmt.Errorf("no node answered in time; the last said: %w", err)
		case <-time.After(pause):
		}
	}
}

func (c *Client) try(ctx context.Context, r request) (a answer, err error) {
	address := "http://" + c.nodes[c.at] + r.path
	sent, err := http.NewRequestWithContext(ctx, r.method, address, bytes.NewReader(r.body))
	if err != nil {
		return
	}
	if r.session.id != 0 {
		sent.Header.Set(server.SessionHeader, fmt.Sprint(r.session.id))
		sent.Header.Set(server.NumberHeader, fmt.Sprint(r.session.number))
	}
	response, err := c.http.Do(sent)
	if err != nil {
		return
	}
	defer response.Body.Close()
	body, err := io.ReadAll(response.Body)
	return answer{response.StatusCode, response.Header, body}, err
}
