package raftlog

import (
	"bytes"
	"encoding/binary"
	"math"
	"path/filepath"
	"strings"
	"sync"
	"testing"
	"time"
)

func must(t *testing.T, err error) {
	t.Helper()
	if err != nil {
		t.Fatal(err)
	}
}

func exercise(t *testing.T, log *Engine) {
	var b Batch
	b.Put(1, []byte("a"), []byte("first"))
	b.Put(1, []byte("b"), nil)
	b.Put(1, []byte("c"), []byte("third"))
	b.Delete(1, []byte("c"))
	var entries []Entry
	for i := uint64(5); i < 15; i++ {
		entries = append(entries, Entry{i, []byte("entry")})
	}
	b.AddEntries(7, entries)
	must(t, log.Write(&b, true))
	value, found, err := log.Get(1, []byte("a"))
	if err != nil || !found || string(value) != "first" {
		t.Fatal(value, found, err)
	}
	if _, found, err = log.Get(1, []byte("c")); found || err != nil {
		t.Fatal(found, err)
	}
	first, last, found, err := log.Span(7)
	if first != 5 || last != 14 || !found || err != nil {
		t.Fatal(first, last, found, err)
	}
	fetched, err := log.FetchEntries(7, 5, 15, 27)
	if err != nil || len(fetched) != 2 || fetched[1].Index != 6 || string(fetched[1].Data) != "entry" {
		t.Fatal(fetched, err)
	}
	if _, err = log.FetchEntries(7, 4, 9, 0); !HasCode(err, Compacted) || err.Error() != "raftlog: entry compacted" {
		t.Fatal(err)
	}
	if _, err = log.FetchEntries(7, 5, 16, 0); !HasCode(err, NoEntry) {
		t.Fatal(err)
	}
	pairs, err := log.Scan(1, nil, nil, true, 0)
	if err != nil || len(pairs) != 2 || string(pairs[0].Key) != "b" || string(pairs[1].Value) != "first" {
		t.Fatal(pairs, err)
	}
	if pairs, err = log.Scan(1, []byte("a"), []byte("b"), false, 0); err != nil || len(pairs) != 1 {
		t.Fatal(pairs, err)
	}
	if count, err := log.CompactTo(7, 8); count != 3 || err != nil {
		t.Fatal(count, err)
	}
	b.Compact(7, 10)
	b.Clean(1)
	must(t, log.Write(&b, false))
	if groups, err := log.Groups(); err != nil || len(groups) != 1 || groups[0] != 7 {
		t.Fatal(groups, err)
	}
	b.AddEntries(7, []Entry{{100, []byte("x")}})
	if err = log.Write(&b, true); !HasCode(err, Gap) || b.Empty() {
		t.Fatal(err)
	}
	must(t, log.Sync())
	if groups, err := log.PurgeExpiredFiles(); err != nil || len(groups) != 0 {
		t.Fatal(groups, err)
	}
	if groups, err := log.PurgeInShortCalls(1 << 20); err != nil || len(groups) != 0 {
		t.Fatal(groups, err)
	}
	if watermark, isDue, err := log.AppendRewriteWatermark(); err != nil || isDue || watermark != 0 {
		t.Fatal(watermark, isDue, err)
	}
	watermark, group, err := log.MustRewriteAppendGroups(math.MaxUint64, 0, 0)
	for err == nil && group != 0 {
		watermark, group, err = log.MustRewriteAppendGroups(watermark, group, 0)
	}
	if watermark == math.MaxUint64 || err != nil {
		t.Fatal(watermark, err)
	}
	if group, err = log.MustRewriteRewriteGroups(0, 0); err != nil {
		t.Fatal(group, err)
	}
	for err == nil && group != 0 {
		group, err = log.MustRewriteRewriteGroups(group, 0)
	}
	if err != nil {
		t.Fatal(err)
	}
	if _, err = log.MustRewriteAppendQueue(); err != nil {
		t.Fatal(err)
	}
	if _, err = log.MustRewriteRewriteQueue(); err != nil {
		t.Fatal(err)
	}
	if _, last, _, err := log.Span(7); last != 14 || err != nil {
		t.Fatal(last, err)
	}
}

func TestPurgeInShortCalls(t *testing.T) {
	log, err := OpenMemory("target-file-size = \"16KB\"\npurge-threshold = \"256KB\"")
	must(t, err)
	var b Batch
	for index := uint64(1); index <= 100; index++ {
		b.AddEntries(9, []Entry{{index, make([]byte, 200)}})
	}
	must(t, log.Write(&b, false))
	place := func(number int) (uint64, []byte) { return uint64(number%20 + 50), []byte{byte(number / 20 % 10)} }
	value := func(number int) []byte { return bytes.Repeat([]byte{byte(number), byte(number >> 8)}, 500) }
	for number := 0; number < 400; number++ {
		group, key := place(number)
		b.Put(group, key, value(number))
		must(t, log.Write(&b, false))
	}
	if watermark, isDue, err := log.AppendRewriteWatermark(); err != nil || !isDue || watermark <= 1 {
		t.Fatal(watermark, isDue, err)
	}
	before, err := log.Stats()
	must(t, err)
	if groups, err := log.PurgeInShortCalls(4000); err != nil || len(groups) == 0 || groups[0] != 9 {
		t.Fatal(groups, err)
	}
	if after, err := log.Stats(); err != nil || after.Purges <= before.Purges+10 {
		t.Fatal(before.Purges, after.Purges, err)
	}
	if _, isDue, err := log.AppendRewriteWatermark(); err != nil || isDue {
		t.Fatal(isDue, err)
	}
	for number := 200; number < 400; number++ {
		group, key := place(number)
		if found, _, err := log.Get(group, key); err != nil || !bytes.Equal(found, value(number)) {
			t.Fatal(number, err)
		}
	}
	if first, last, _, err := log.Span(9); first != 1 || last != 100 || err != nil {
		t.Fatal(first, last, err)
	}
	must(t, log.Close())
}

func TestMemory(t *testing.T) {
	log, err := OpenMemory("")
	must(t, err)
	exercise(t, log)
	must(t, log.Close())
	if _, _, err := log.Get(1, nil); !HasCode(err, Failed) {
		t.Fatal(err)
	}
}

func TestOnce(t *testing.T) {
	log, err := OpenMemory("")
	must(t, err)
	put := func(value string, numbers ...Number) error {
		var b Batch
		b.Put(1, []byte("k"), []byte(value))
		return log.WriteOnce(&b, numbers, true)
	}
	has := func(wanted string) {
		t.Helper()
		if value, _, err := log.Get(1, []byte("k")); err != nil || string(value) != wanted {
			t.Fatal(value, err)
		}
	}
	must(t, put("a", Number{1, 5}))
	must(t, put("b", Number{1, 5}))
	has("a")
	if err := put("c", Number{1, 6}, Number{2, 0}); !HasCode(err, Stale) {
		t.Fatal(err)
	}
	if err := put("c"); !HasCode(err, Invalid) {
		t.Fatal(err)
	}
	has("a")
	must(t, put("c", Number{1, 6}, Number{2, 1}))
	has("c")
	must(t, log.Close())
}

func TestFolder(t *testing.T) {
	folder := filepath.Join(t.TempDir(), "log")
	log, err := Open(folder, "")
	must(t, err)
	exercise(t, log)
	if _, err = Open(folder, ""); !HasCode(err, InUse) {
		t.Fatal(err)
	}
	must(t, log.Close())
	log, err = Open(folder, `target-file-size = "4KB"`)
	must(t, err)
	first, last, found, err := log.Span(7)
	if first != 10 || last != 14 || !found || err != nil {
		t.Fatal(first, last, found, err)
	}
	must(t, log.Close())
}

func TestGoroutines(t *testing.T) {
	log, err := OpenMemory("")
	must(t, err)
	var wait sync.WaitGroup
	for g := uint64(1); g <= 8; g++ {
		wait.Add(1)
		go func(g uint64) {
			defer wait.Done()
			var b Batch
			var key [8]byte
			for i := uint64(0); i < 1000; i++ {
				binary.LittleEndian.PutUint64(key[:], i)
				b.Put(g, key[:], key[:])
				if err := log.Write(&b, false); err != nil {
					t.Error(err)
				}
				if value, _, err := log.Get(g, key[:]); err != nil || !bytes.Equal(value, key[:]) {
					t.Error(value, err)
				}
			}
		}(g)
	}
	wait.Wait()
	must(t, log.Close())
}

// Goroutines that write at once share syncs, and each gets the text of its own failure.
func TestRounds(t *testing.T) {
	log, err := Open(filepath.Join(t.TempDir(), "log"), "")
	must(t, err)
	const writers = 16
	var wait sync.WaitGroup
	puts := uint64(0)
	for turn := 0; turn < 50; turn++ {
		for g := uint64(1); g <= writers; g++ {
			wait.Add(1)
			go func(g uint64) {
				defer wait.Done()
				var b Batch
				for i := 0; i < 10; i++ {
					b.Put(g, []byte("key"), []byte("value"))
					if err := log.Write(&b, true); err != nil {
						t.Error(err)
					}
				}
				b.AddEntries(g, []Entry{{5, nil}, {7, nil}})
				if err := log.Write(&b, true); !HasCode(err, Gap) || !strings.Contains(err.Error(), "gap") {
					t.Error(err)
				}
				if _, err := log.FetchEntries(g, 2, 1, 0); !HasCode(err, Invalid) || strings.Contains(err.Error(), "gap") {
					t.Error(err)
				}
			}(g)
		}
		wait.Wait()
		puts += 10 * writers
		stats, err := log.Stats()
		must(t, err)
		if stats.SyncedChanges != puts || stats.Batches != puts || stats.Syncs == 0 || stats.Bytes == 0 ||
			stats.SyncTime == 0 || stats.Writes == 0 || stats.Files == 0 || stats.IndexBytes == 0 || stats.LongestSync > stats.SyncTime {
			t.Fatal(stats)
		}
		classes := uint64(0)
		for _, count := range stats.SyncTimes {
			classes += count
		}
		if classes != stats.Syncs {
			t.Fatal(stats)
		}
		if stats.LargestRound > 1 && stats.Rounds < stats.Changes {
			must(t, log.Close())
			if _, err := log.Stats(); !HasCode(err, Failed) {
				t.Fatal(err)
			}
			return
		}
	}
	t.Fatal("no sync was shared")
}

// A close lets the calls that run end, and those that come later fail.
func TestCloseBeside(t *testing.T) {
	folder := filepath.Join(t.TempDir(), "log")
	log, err := Open(folder, "")
	must(t, err)
	var wait sync.WaitGroup
	var answered [8]uint64
	for g := range answered {
		wait.Add(1)
		go func(g int) {
			defer wait.Done()
			var b Batch
			for i := uint64(1); ; i++ {
				b.AddEntries(uint64(g+1), []Entry{{i, []byte("entry")}})
				if err := log.Write(&b, i%2 == 0); HasCode(err, Failed) {
					return
				} else if err != nil {
					t.Error(err)
				}
				answered[g] = i
			}
		}(g)
	}
	time.Sleep(50 * time.Millisecond)
	must(t, log.Close())
	wait.Wait()
	log, err = Open(folder, "")
	must(t, err)
	for g, wanted := range answered {
		if _, last, _, err := log.Span(uint64(g + 1)); last != wanted || err != nil {
			t.Fatal(g, last, wanted, err)
		}
	}
	must(t, log.Close())
}

func BenchmarkPut(b *testing.B) {
	log, _ := OpenMemory("")
	defer log.Close()
	var batch Batch
	var key [16]byte
	value := make([]byte, 100)
	b.ResetTimer()
	for i := 0; i < b.N; i++ {
		binary.LittleEndian.PutUint64(key[:], uint64(i)*0x9E3779B97F4A7C15|0x80)
		batch.Put(1+uint64(i%100), key[:], value)
		if err := log.Write(&batch, false); err != nil {
			b.Fatal(err)
		}
	}
}

func BenchmarkGet(b *testing.B) {
	log, _ := OpenMemory("")
	defer log.Close()
	var batch Batch
	var key [16]byte
	value := make([]byte, 100)
	for i := 0; i < 100000; i++ {
		binary.LittleEndian.PutUint64(key[:], uint64(i)*0x9E3779B97F4A7C15|0x80)
		batch.Put(1+uint64(i%100), key[:], value)
	}
	if err := log.Write(&batch, false); err != nil {
		b.Fatal(err)
	}
	b.ResetTimer()
	for i := 0; i < b.N; i++ {
		j := i * 7919 % 100000
		binary.LittleEndian.PutUint64(key[:], uint64(j)*0x9E3779B97F4A7C15|0x80)
		if _, found, err := log.Get(1+uint64(j%100), key[:]); !found || err != nil {
			b.Fatal(found, err)
		}
	}
}
