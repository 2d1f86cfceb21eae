package raftlog

import (
	"os"
	"path/filepath"
	"testing"
)

const smallFiles = "target-file-size = \"4KB\"\npurge-threshold = \"1GB\""

func fillFiles(t *testing.T, folder string) {
	log, err := OpenWhole(folder, smallFiles)
	must(t, err)
	var b Batch
	for i := 0; i < 60; i++ {
		b.Put(1, []byte{byte(i)}, make([]byte, 500))
		must(t, log.Write(&b, true))
	}
	must(t, log.Close())
}

func missingOf(t *testing.T, folder string) []Loss {
	log, err := Open(folder, smallFiles)
	must(t, err)
	losses, err := log.Missing()
	must(t, err)
	must(t, log.Close())
	return losses
}

// A log file that was deleted is reported by each opening until that is accepted.
func TestMissing(t *testing.T) {
	folder := filepath.Join(t.TempDir(), "log")
	fillFiles(t, folder)
	if losses := missingOf(t, folder); len(losses) != 0 {
		t.Fatal(losses)
	}
	must(t, os.Remove(filepath.Join(folder, "0000000000000003.raftlog")))
	if _, err := OpenWhole(folder, smallFiles); !HasCode(err, Lost) {
		t.Fatal(err)
	}
	for range []int{0, 1} {
		losses := missingOf(t, folder)
		if len(losses) != 1 || losses[0] != (Loss{FileMissing, false, 3, 3}) {
			t.Fatal(losses)
		}
	}
	log, err := Open(folder, smallFiles)
	must(t, err)
	_, err = log.MustRewriteAppendQueue()
	must(t, err)
	must(t, log.Close())
	if losses := missingOf(t, folder); len(losses) != 1 || losses[0].Kind != LostBefore {
		t.Fatal(losses)
	}
	must(t, AcceptMissing(folder))
	log, err = OpenWhole(folder, smallFiles)
	must(t, err)
	must(t, log.Close())
	if _, err := log.Missing(); !HasCode(err, Failed) {
		t.Fatal(err)
	}
	if err := AcceptMissing(""); !HasCode(err, Invalid) {
		t.Fatal(err)
	}
}
