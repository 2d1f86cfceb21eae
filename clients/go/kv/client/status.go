package client

import (
	"context"
	"encoding/json"
	"fmt"
	"net/http"
	"time"

	"kv/node"
)

// Status asks a node how it stands.
func Status(ctx context.Context, address string) (status node.Status, err error) {
	ctx, cancel := context.WithTimeout(ctx, attempt)
	defer cancel()
	request, err := http.NewRequestWithContext(ctx, http.MethodGet, "http://"+address+"/status", nil)
	if err != nil {
		return
	}
	response, err := http.DefaultClient.Do(request)
	if err != nil {
		return
	}
	defer response.Body.Close()
	if response.StatusCode != http.StatusOK {
		return status, fmt.Errorf("%s answers %s", address, response.Status)
	}
	err = json.NewDecoder(response.Body).Decode(&status)
	return
}

// Groups asks until one of the nodes answers how many groups they have.
func Groups(ctx context.Context, nodes []string) (uint64, error) {
	for {
		var failure error
		for _, address := range nodes {
			status, err := Status(ctx, address)
			if err == nil {
				return uint64(len(status.Groups)), nil
			}
			failure = err
		}
		select {
		case <-ctx.Done():
			return 0, fmt.Errorf("no node answers: %w", failure)
		case <-time.After(pause):
		}
	}
}
