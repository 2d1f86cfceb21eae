#!/usr/bin/env python3
"""Tries the commands of raftctl that bring data back or take it over, on logs of which each record is known.

    tools/disk-tests/rescue_tests.py crates/raftctl/out/raftctl [--logs N] [--compressed N] [--corrupted N] [--seed N]

`sum`, `import`, `salvage`, `truncate`, `lines` and `append` of several groups. N random logs are dumped and imported (200
without the word), and N have their entries compressed by Python's lz4 or by liblz4, as raft-engine writes them, and are
imported from their folder (1,000 without the word). N corrupted blocks have to be read or refused as by liblz4 (200
without the word). Prints what went wrong, and how much was tried; the status is 1 if something did.
"""
import argparse
import ctypes
import json
import os
import random
import shutil
import subprocess
import sys
import tempfile
import zlib

from block_cases import Blocks
from folders import HEADER, add, bytes_of, flip, logs_in, record, records_of, state_of
from gap_cases import Gaps

GROUPS = (1, 2, 3)


def compressor():
    """What compresses as raft-engine does: the number of bytes in four, the least first, and a block of LZ4. It is Python's
    lz4 (Debian's python3-lz4), or liblz4 without that, and its name."""
    try:
        from lz4.block import compress
        return compress, "Python's lz4"
    except ImportError:
        pass
    library = ctypes.CDLL("liblz4.so.1")

    def compress_by_library(data):
        room = library.LZ4_compressBound(len(data))
        out = ctypes.create_string_buffer(room)
        length = library.LZ4_compress_default(data, out, len(data), room)
        return len(data).to_bytes(4, "little") + out.raw[:length]

    return compress_by_library, "liblz4"


def compressed(data, compress, least):
    """The same file with each block of so many bytes compressed."""
    found, end = records_of(data)
    out = data[: found[0][0]] if found else data[:end]
    for _, kind, block, footer in found:
        if kind == 0 and len(block) - 4 >= least:
            kept = compress(block[:-4])
            out += record(1, kept + zlib.crc32(kept).to_bytes(4, "little"), footer)
        else:
            out += record(kind, block, footer)
    return out + data[end:]


class Model:
    """What a list of items stands for, with gaps among entries."""

    def __init__(self):
        self.entries = {group: {} for group in GROUPS}
        self.keys = {group: {} for group in GROUPS}

    def apply(self, item):
        group, kind = item["group"], item["kind"]
        entries, keys = self.entries[group], self.keys[group]
        if kind == "put":
            keys[item["key"]] = item["value"]
        elif kind == "delete":
            keys.pop(item["key"], None)
        elif kind == "entry":
            self.entries[group] = {i: v for i, v in entries.items() if i < item["index"]} | {item["index"]: item["value"]}
        elif kind == "compact":
            self.entries[group] = {i: v for i, v in entries.items() if i >= item["index"]}
        else:
            self.entries[group], self.keys[group] = {}, {}

    def usable(self, group):
        """The entries behind the last gap."""
        found, entries = {}, self.entries[group]
        for index in sorted(entries, reverse=True):
            if found and index + 1 not in found:
                break
            found[index] = entries[index]
        return found


class Tests(Gaps, Blocks):
    def __init__(self, program, work, seed):
        self.program, self.work, self.random = os.path.abspath(program), work, random.Random(seed)
        self.tried = self.bad = 0
        self.small = os.path.join(work, "small.toml")
        with open(self.small, "w", encoding="ascii") as file:
            file.write('target-file-size = "1KB"\npurge-threshold = "4KB"\n')

    def run(self, folder, *words, **more):
        return subprocess.run([self.program, folder, *map(str, words)], capture_output=True, timeout=600, **more)

    def expect(self, case, holds):
        self.tried += 1
        if not holds:
            self.bad += 1
            print(f"wrong: {case}", flush=True)

    def place(self, name):
        return os.path.join(self.work, name)

    def sum_of(self, folder, *words):
        return self.run(folder, "sum", *words).stdout

    def items(self, count):
        """Random items that a log takes one after the other, each as a record of its own."""
        made, model = [], Model()
        for number in range(count):
            group = self.random.choice(GROUPS)
            item = {"queue": "append", "number": 1, "offset": number, "group": group}
            held = model.entries[group]
            kind = self.random.choice(["entry"] * 6 + ["put"] * 4 + ["delete", "compact", "clean"])
            if kind == "clean" and self.random.random() < 0.8:
                kind = "put"
            if kind == "entry":
                low = min(held, default=self.random.randrange(1, 9))
                at = max(held, default=low - 1) + 1
                if held and self.random.random() < 0.1:
                    at = self.random.randrange(low, at)
                item |= {"index": at, "value": f"entry {at} {number} " * self.random.randrange(1, 30)}
            elif kind == "compact":
                item |= {"index": self.random.randrange(1, max(held, default=1) + 2)}
            elif kind != "clean":
                item |= {"key": f"key{self.random.randrange(9)}"}
                if kind == "put":
                    item |= {"value": f"value {number} " * self.random.randrange(1, 9)}
            item["kind"] = kind
            model.apply(item)
            made.append(item)
        return made, model

    def write(self, folder, items, *words):
        lines = "".join(json.dumps(item) + "\n" for item in items).encode()
        return self.run(folder, "import", "-", "--settings", self.small, *words, input=lines)

    def holds(self, case, folder, model):
        """A log has what a model tells: entries behind the last gap, and keys."""
        told = self.run(folder, "dump", "--json")
        found = Model()
        for line in told.stdout.splitlines():
            found.apply(json.loads(line))
        same = all(found.usable(g) == model.usable(g) and found.keys[g] == model.keys[g] for g in GROUPS)
        self.expect(f"{case}: {folder}", told.returncode == 0 and same)

    def random_log(self, name):
        folder = self.place(name)
        items, model = self.items(self.random.randrange(5, 60))
        ran = self.write(folder, items)
        self.expect(f"items are imported: {ran.stderr}", ran.returncode == 0)
        for _ in range(self.random.randrange(3)):
            self.run(folder, "rewrite", self.random.choice(["append", "rewrite"]), "--settings", self.small)
            more, _ = self.items(3)
            self.write(folder, [dict(item, group=1) for item in more if item["kind"] == "put"])
        return folder, model

    def imports(self, count):
        for number in range(count):
            folder, _ = self.random_log(f"log{number}")
            other = self.place(f"copy{number}")
            ran = self.run(other, "import", input=self.run(folder, "dump", "--json").stdout)
            same = self.sum_of(other) == self.sum_of(folder) != b""
            self.expect(f"dump and import {number}: {ran.stderr}", ran.returncode == 0 and same)
            shutil.rmtree(other)
            shutil.rmtree(folder)

    def compressed(self, count):
        compress, name = compressor()
        print(f"blocks are compressed by {name}")
        found = 0
        for number in range(count):
            folder, _ = self.random_log(f"plain{number}")
            packed, other = self.place(f"packed{number}"), self.place(f"taken{number}")
            shutil.copytree(folder, packed)
            for name in logs_in(packed):
                data = bytes_of(os.path.join(folder, name))
                with open(os.path.join(packed, name), "wb") as file:
                    file.write(compressed(data, compress, 100))
                found += bytes_of(os.path.join(packed, name)) != data
            before = state_of(packed)
            ran = self.run(other, "import", "--from-folder", packed, "--target", "64KB")
            same = self.sum_of(other) == self.sum_of(folder) != b"" and state_of(packed) == before
            self.expect(f"compressed {number}: {ran.stdout} {ran.stderr}", ran.returncode == 0 and same)
            if number == 0:
                self.refused(packed)
            for path in (folder, packed, other):
                shutil.rmtree(path)
        self.expect("files have compressed records", found >= min(count, 20))

    def refused(self, packed):
        """A compressed block whose checksum holds and that stands for other bytes."""
        name = next(n for n in sorted(logs_in(packed)) if b"" != self.first_compressed(os.path.join(packed, n)))
        path = os.path.join(packed, name)
        data = bytes_of(path)
        at, _, block, footer = next(it for it in records_of(data)[0] if it[1] == 1 and it[2])
        for kept in (block[:-4][:-1], b"\0\0\0\0" + block[4:-4], block[:4]):
            broken = record(1, kept + zlib.crc32(kept).to_bytes(4, "little"), footer)
            with open(path, "wb") as file:
                file.write(data[:at] + broken + data[at + 16 + len(block) + len(footer) :])
            ran = self.run(self.place("refused"), "import", "--from-folder", packed)
            told = b"cause compressed" in ran.stdout and not os.path.exists(self.place("refused"))
            self.expect(f"a block that stands for other bytes: {ran}", ran.returncode in (4, 7) and (told or ran.returncode == 4))
            shutil.rmtree(self.place("refused"), ignore_errors=True)
        with open(path, "wb") as file:
            file.write(data)

    @staticmethod
    def first_compressed(path):
        return next((it[2] for it in records_of(bytes_of(path))[0] if it[1] == 1), b"")

    def damaged(self, name, count, how):
        """A log of which one record in each of so many files is damaged, the model of what can be read, and what begins the
        line on each damaged record."""
        folder = self.place(name)
        items, _ = self.items(160)
        self.write(folder, items)
        files = sorted(n for n in logs_in(folder) if n.endswith(".raftlog"))
        found = {file: records_of(bytes_of(os.path.join(folder, file)))[0] for file in files}
        usable = {file: [place for place, it in enumerate(found[file]) if it[2] or how != "entries"] for file in files}
        # Zeros at the end of the last file are room made ahead.
        files_to_hurt = [file for file in (files[:-1] if how == "zeros" else files) if usable[file]]
        self.expect(f"{name} has files: {files_to_hurt}", len(files_to_hurt) >= count)
        chosen = self.random.sample(files_to_hurt, count)
        lost, model, lines, number = {file: self.random.choice(usable[file]) for file in chosen}, Model(), [], 0
        for file in files:
            for place, (at, _, block, footer) in enumerate(found[file]):
                if place == lost.get(file):
                    self.hurt(os.path.join(folder, file), at, 16 + len(block) + len(footer), how)
                    lines.append(self.lost_line(file, at, items[number], how, model))
                else:
                    model.apply(items[number])
                number += 1
        self.expect(f"{name}: {number} records", number == len(items))
        return folder, model, lines

    @staticmethod
    def lost_line(file, at, item, how, model):
        """What begins the line on a damaged record. If only its entries are, the footer still says which they were."""
        line = f"unread {file} offset {at} "
        if how == "entries":
            held, index = model.entries[item["group"]], item["index"]
            model.entries[item["group"]] = {i: v for i, v in held.items() if i < index}
            line += f"lost-group {item['group']} first {index} last {index}"
        return line.encode()

    @staticmethod
    def hurt(path, at, length, how):
        if how == "header":
            flip(path, at + 6)
        elif how == "entries":
            flip(path, at + 16)
        elif how == "footer":
            flip(path, at + length - 2)
        elif how == "zeros":
            with open(path, "r+b") as file:
                file.seek(at)
                file.write(bytes(length))
        else:
            with open(path, "r+b") as file:
                file.seek(at)
                file.write(os.urandom(length))

    def salvages(self):
        for how in ("header", "footer", "random", "zeros", "entries"):
            for turn in range(4):
                folder, model, lines = self.damaged(f"{how}{turn}", 5, how)
                target, before = self.place(f"saved-{how}{turn}"), state_of(folder)
                ran = self.run(folder, "salvage", target)
                told = all(line in ran.stdout for line in lines)
                self.expect(f"salvage {how}: {ran}", ran.returncode == 4 and told and state_of(folder) == before)
                self.holds(f"salvage {how}", target, model)
                self.told_gaps(ran.stdout, model)
                again = self.run(folder, "salvage", target)
                self.expect("a target that isn't empty", again.returncode == 1 and b"empty" in again.stderr)

    def told_gaps(self, told, model):
        lines = set(told.decode().splitlines())
        for group in GROUPS:
            held = sorted(model.entries[group])
            for one, other in zip(held, held[1:]):
                if one + 1 != other:
                    line = f"group {group} missing-from {one + 1} to {other - 1}"
                    self.expect(f"{line}: {told}", line in lines)
            usable = model.usable(group)
            left = [index for index in held if index not in usable]
            named = set()
            for line in lines:
                words = line.split()
                if words[:3] == ["group", str(group), "left-out-from"]:
                    named |= set(range(int(words[3]), int(words[5]) + 1))
            self.expect(f"left out of group {group}: {named} {left}", named == set(left))

    def kept(self):
        """What a repair cut off, or moved aside, comes back."""
        folder = self.place("kept")
        items, _ = self.items(160)
        items = [dict(item, kind="put", key=f"k{n}", value="v") for n, item in enumerate(items)]
        self.write(folder, items)
        files = sorted(n for n in logs_in(folder) if n.endswith(".raftlog"))
        found = {name: records_of(bytes_of(os.path.join(folder, name)))[0] for name in files}
        last = next(name for name in reversed(files) if len(found[name]) > 2)
        flip(os.path.join(folder, last), found[last][1][0] + 18)
        os.remove(os.path.join(folder, files[1]))
        gone = len(found[files[0]])
        ran = self.run(folder, "repair", "--cut", "--mode", "any")
        self.expect(f"a repair: {ran}", ran.returncode == 0 and b".cut-" in ran.stdout and b".passed" in ran.stdout)
        self.run(folder, "put", 1, "later", "v")
        target, before = self.place("kept-saved"), state_of(folder)
        ran = self.run(folder, "salvage", target)
        keys = sum(len(self.run(target, "scan", group).stdout.splitlines()) for group in GROUPS)
        self.expect(f"salvage of kept files: {ran}", ran.returncode == 4 and state_of(folder) == before)
        lost = len(items) + 1 - keys
        missing = b"missing 2 before 3" in ran.stdout
        self.expect(f"kept files come back: {lost} lost, {gone}: {ran.stdout}", missing and 1 < lost <= gone + 12)
        one = self.place("one-saved")
        ran = self.run(folder, "salvage", one, files[0] + ".passed")
        self.expect(f"salvage of one file: {ran}", ran.returncode == 0 and b"records %d " % gone in ran.stdout)

    def stale(self):
        """Records of an earlier use of a file come back only if that is asked."""
        folder = self.place("stale")
        items, _ = self.items(30)
        self.write(folder, items)
        name = sorted(n for n in logs_in(folder) if n.endswith(".raftlog"))[-1]
        other = self.place("stale-other")
        self.run(other, "put", 9, "old", "value")
        data = bytes_of(os.path.join(other, f"{1:016}.raftlog"))[HEADER:]
        add(os.path.join(folder, name), b"\7" * 5 + data)
        for words, there in (([], False), (["--stale"], True)):
            target = self.place("stale-saved" + "".join(words))
            ran = self.run(folder, "salvage", target, *words)
            found = self.run(target, "get", 9, "old").returncode == 0
            self.expect(f"stale records {words}: {ran}", ran.returncode in (0, 4) and found == there)

    def ends(self):
        """An import leaves a torn end out, and is refused where more is broken."""
        folder, _ = self.random_log("ends")
        name = sorted(n for n in logs_in(folder) if n.endswith(".raftlog"))[-1]
        told = self.sum_of(folder)
        add(os.path.join(folder, name), record(0, b"", b"\x01" * 40)[:30])
        ran = self.run(self.place("ends-taken"), "import", "--from-folder", folder)
        same = self.sum_of(self.place("ends-taken")) == told
        self.expect(f"a torn end: {ran}", ran.returncode == 4 and same and b"unread " + name.encode() in ran.stdout)
        folder, model, _ = self.damaged("middle", 1, "footer")
        target = self.place("middle-taken")
        ran = self.run(target, "import", "--from-folder", folder)
        self.expect(f"a broken record: {ran}", ran.returncode == 7 and not os.path.exists(target))
        ran = self.run(target, "import", "--from-folder", folder, "--cut")
        self.expect(f"with --cut: {ran}", ran.returncode == 4)
        self.holds("import with --cut", target, model)

    def sums(self):
        folder, _ = self.random_log("sums")
        told = self.sum_of(folder)
        self.run(folder, "rewrite", "append", "--settings", self.small)
        self.expect("a sum after a rewriting", self.sum_of(folder) == told)
        copy = self.place("sums-copy")
        self.run(folder, "fork", copy)
        self.expect("a sum of a fork", self.sum_of(copy) == told)
        self.run(copy, "put", 1, "another", "value")
        self.expect("another sum", self.sum_of(copy) != told and self.sum_of(copy, 2) == self.sum_of(folder, 2))

    def truncates(self):
        folder = self.place("truncate")
        self.run(folder, "append", 7, *"abcdef")
        self.run(folder, "put", 7, "k", "v")
        part = self.sum_of(folder, 7, 1, 3)
        before = state_of(folder)
        ran = self.run(folder, "truncate", 7, 4, "--dry-run")
        self.expect(f"a dry truncate: {ran}", ran.stdout == b"removed 3 last 3\n" and state_of(folder) == before)
        ran = self.run(folder, "truncate", 7, 4)
        self.expect(f"truncate: {ran}", ran.stdout == b"removed 3 last 3\n" and self.sum_of(folder, 7, 1) == part)
        self.expect("truncate of nothing", self.run(folder, "truncate", 7, 4).stdout == b"removed 0 last 3\n")
        self.expect("truncate of all", self.run(folder, "truncate", 7, 1).stdout == b"removed 3\n")
        self.expect("keys stay", self.run(folder, "get", 7, "k").stdout == b"v\n")

    def several(self):
        folder = self.place("several")
        ran = self.run(folder, "append", "each", "--lines", "-", input=b"7\ta\n8\tb\n7\tc\n")
        self.expect(f"append each: {ran}", ran.stdout == b"7\t1\t2\n8\t1\t1\n")
        ran = self.run(folder, "lines", "each", "-", input=b"7\tk\tv\n9\tk\tw\n")
        self.expect(f"lines each: {ran}", ran.returncode == 0 and self.run(folder, "get", 9, "k").stdout == b"w\n")
        ran = self.run(folder, "lines", "each", "-", "--entries", "--json", input=b'{"group":8,"index":2,"value":"x"}\n')
        self.expect(f"entries each: {ran}", self.run(folder, "entry", 8, 2).stdout == b"x\n")

    def statuses(self):
        """A copy that isn't whole never ends with 0."""
        folder, _, _ = self.damaged("statuses", 1, "header")
        files = sorted(n for n in logs_in(folder) if n.endswith(".raftlog"))
        checked = self.run(folder, "check").returncode
        ran = self.run(folder, "fork", self.place("statuses-copy"))
        self.expect(f"a fork of a broken log: {ran}", checked != 0 and ran.returncode == checked)
        ran = self.run(folder, "consistency")
        self.expect(f"consistency of a broken log: {ran}", ran.returncode == checked)
        os.remove(os.path.join(folder, files[2]))
        ran = self.run(folder, "fork", self.place("statuses-copy2"))
        self.expect(f"a fork of a part: {ran}", ran.returncode == self.run(folder, "check").returncode != 0)


def main():
    arguments = argparse.ArgumentParser(description=__doc__, formatter_class=argparse.RawDescriptionHelpFormatter)
    arguments.add_argument("program")
    arguments.add_argument("--logs", type=int, default=200)
    arguments.add_argument("--compressed", type=int, default=1000)
    arguments.add_argument("--corrupted", type=int, default=200)
    arguments.add_argument("--seed", type=int, default=1)
    asked = arguments.parse_args()
    with tempfile.TemporaryDirectory() as work:
        tests = Tests(asked.program, work, asked.seed)
        tests.sums()
        tests.truncates()
        tests.several()
        tests.salvages()
        tests.kept()
        tests.stale()
        tests.ends()
        tests.zeros()
        tests.kept_zeros()
        tests.gaps()
        tests.rewritten_gaps()
        tests.sound_gaps()
        tests.aligned()
        tests.older_keys()
        tests.known_limits()
        tests.open_sources()
        tests.pipes()
        tests.statuses()
        tests.imports(asked.logs)
        tests.compressed(asked.compressed)
        tests.corrupted(asked.corrupted, compressor()[0])
    print(f"{tests.tried} cases, {tests.bad} wrong")
    return 1 if tests.bad else 0


if __name__ == "__main__":
    sys.exit(main())
