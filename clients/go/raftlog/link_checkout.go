//go:build !raftlog_installed

package raftlog

// #cgo CFLAGS: -I${SRCDIR}/../../c
// #cgo LDFLAGS: ${SRCDIR}/../../c/build/libraftlog.a -lpthread -lm
import "C"
