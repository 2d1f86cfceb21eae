//go:build raftlog_installed

package raftlog

// #cgo pkg-config: raftlog
import "C"
