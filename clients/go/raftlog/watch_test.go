package raftlog

import (
	"os"
	"path/filepath"
	"testing"
)

const entries = 4000

// makeEntries makes a log of entries of 1,000 bytes, and answers its folder and the file they stand in.
func makeEntries(t *testing.T) (folder, file string) {
	folder = filepath.Join(t.TempDir(), "log")
	log, err := Open(folder, "")
	must(t, err)
	var b Batch
	for i := uint64(1); i <= entries; i++ {
		b.AddEntries(1, []Entry{{i, make([]byte, 1000)}})
		must(t, log.Write(&b, false))
	}
	must(t, log.Close())
	return folder, filepath.Join(folder, "0000000000000001.raftlog")
}

func TestWatch(t *testing.T) {
	folder, _ := makeEntries(t)
	files, err := filepath.Glob(filepath.Join(folder, "*.r*"))
	must(t, err)
	size, last := uint64(0), uint64(0)
	for _, file := range files {
		is, err := os.Stat(file)
		must(t, err)
		size += uint64(is.Size())
	}
	log, err := OpenWatched(folder, "", func(done, all uint64) {
		if done < last || all != size {
			t.Error(done, all, size)
		}
		last = done
	})
	must(t, err)
	if last != size {
		t.Fatal(last, size)
	}
	for _, atRandom := range []bool{true, false} {
		must(t, log.ExpectReads(atRandom))
		for _, index := range []uint64{entries, 7, 2000} {
			if data, found, err := log.GetEntry(1, index); err != nil || !found || len(data) != 1000 {
				t.Fatal(len(data), found, err)
			}
		}
	}
	must(t, log.Close())
	if err := log.ExpectReads(true); !HasCode(err, Failed) {
		t.Fatal(err)
	}
}

// Four bytes behind the last record, which the next opening cuts off and tells.
func TestCuts(t *testing.T) {
	folder, file := makeEntries(t)
	is, err := os.Stat(file)
	must(t, err)
	end, err := os.OpenFile(file, os.O_APPEND|os.O_WRONLY, 0)
	must(t, err)
	_, err = end.WriteString("torn")
	must(t, err)
	must(t, end.Close())
	for _, want := range [][]Cut{{{filepath.Base(file), uint64(is.Size()), 4, false}}, {}} {
		log, err := Open(folder, "")
		must(t, err)
		cuts, err := log.Cuts()
		must(t, err)
		if !areSame(cuts, want) {
			t.Fatal(cuts, want)
		}
		must(t, log.Close())
		if _, err := log.Cuts(); !HasCode(err, Failed) {
			t.Fatal(err)
		}
	}
}

// A copy of an open log, whose last file was used before.
func TestStaleCuts(t *testing.T) {
	folder, copied := filepath.Join(t.TempDir(), "log"), t.TempDir()
	settings := "target-file-size = \"4KB\"\nenable-log-recycle = true\nprefill-for-recycle = false"
	log, err := Open(folder, settings)
	must(t, err)
	var b Batch
	for i := 0; i < 60; i++ {
		b.Put(1, []byte("key"), make([]byte, 200))
		must(t, log.Write(&b, true))
		if i == 40 {
			_, err := log.MustRewriteAppendQueue()
			must(t, err)
		}
	}
	files, err := filepath.Glob(filepath.Join(folder, "*.r*"))
	must(t, err)
	for _, file := range files {
		bytes, err := os.ReadFile(file)
		must(t, err)
		must(t, os.WriteFile(filepath.Join(copied, filepath.Base(file)), bytes, 0o600))
	}
	must(t, log.Close())
	log, err = Open(copied, "")
	must(t, err)
	cuts, err := log.Cuts()
	must(t, err)
	if len(cuts) != 1 || !cuts[0].Stale {
		t.Fatal(cuts)
	}
	must(t, log.Close())
}

func areSame(one, other []Cut) bool {
	same := len(one) == len(other)
	for i := range one {
		same = same && one[i] == other[i]
	}
	return same
}

// A file that is cut behind an open log.
func TestSurviveBusErrors(t *testing.T) {
	must(t, SurviveBusErrors())
	folder, file := makeEntries(t)
	log, err := Open(folder, "")
	must(t, err)
	must(t, os.Truncate(file, 1<<20))
	done := 0
	for i := uint64(1); i <= entries; i++ {
		data, found, err := log.GetEntry(1, i)
		switch {
		case err == nil && found && len(data) == 1000:
			done++
		case !HasCode(err, Corruption):
			t.Fatal(i, found, err)
		}
	}
	if done == 0 || done > entries/2 {
		t.Fatal(done)
	}
	must(t, log.Close())
}
