//go:build compare

package main

import (
	"kv/storage"
	"kv/storage/boltstore"
	"kv/storage/walstore"
)

// Stores that need more packages, for figures.
func init() {
	stores["wal"] = func(s settings) (storage.Store, error) { return walstore.Open(s.folder) }
	stores["bolt"] = func(s settings) (storage.Store, error) { return boltstore.Open(s.folder) }
}
