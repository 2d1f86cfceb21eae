#!/usr/bin/env python3
"""What raftctl's commands do to a real folder: those that look leave it as it was, and none loses evidence.

    tools/disk-tests/look_tests.py crates/raftctl/out/raftctl [--all] [--without NAME..]

Prints a line for each case that is wrong, and how many there were. The status is 1 if one is wrong. `--all` also runs
`rescue_tests.py` and `watch_tests.py`, at full size: together they try each command of raftctl. `--without` leaves out
cases by the names of their functions, such as `big_tails`, which takes minutes if the program is not optimized.
"""
import argparse
import json
import os
import re
import resource
import shutil
import subprocess
import sys
import tempfile

from call_cases import Calls
from dump_cases import Dumps
from folders import add, bytes_of, flip, logs_in, numbers_in, reserved_in, state_of
from limit_cases import Limits
from loss_cases import Losses
from mend_cases import Mends
from note_cases import Notes
from plan_cases import Plans
from source_cases import Sources
from stream_cases import Streams

KEYS = 2000
GB = 1 << 30
SECONDS = 600    # for one command, on a busy machine
STAMP = os.path.join(os.path.dirname(os.path.dirname(os.path.abspath(__file__))), "stamp")
# The header of a record of 8,192 bytes, of which the last sixteen are its footer.
HEAD = bytes([0, 0, 0, 0, 0, 0x20, 0, 0, 0, 0, 0, 0, 0, 0, 0x1F, 0xF0])
# A record of a key and a value of 40 bytes has fewer bytes.
RECORD = 80
OTHERS = ["rescue_tests.py", "watch_tests.py"]
LOOKS = [
    "get 1 5", "get 1 none", "list", "list 3 --limit 2", "scan 1 --from 2 --to 3 --reverse --json",
    "entry 7 2", "entry 7 9", "entries 7", "groups", "stat", "dump", "dump 0000000000000003.raftlog",
    "check", "check --mode absolute --json", "check --mode any", "picture", "settings",
    f"verify {KEYS} 40", "consistency", "list --threads 1",
]
# What each of them ends with in the whole folder, and in one that is broken in its third file.
WHOLE = [0, 3, 0, 0, 0, 0, 3, 0, 0, 0, 0, 0, 0, 0, 0, 0, 0, 0, 0, 0]
BROKEN = [1, 1, 1, 1, 1, 1, 1, 1, 1, 1, 4, 4, 5, 5, 4, 1, 0, 1, 5, 1]


class Tests(Losses, Plans, Mends, Notes, Sources, Dumps, Calls, Streams, Limits):
    def __init__(self, program, work):
        self.program = os.path.abspath(program)
        self.work = work
        self.tried = 0
        self.bad = 0

    def run(self, folder, *words, **more):
        words = [self.program, folder, *map(str, words)]
        return subprocess.run(words, capture_output=True, timeout=SECONDS, **more)

    def expect(self, case, holds):
        self.tried += 1
        if not holds:
            self.bad += 1
            print(f"wrong: {case}")

    def leaves(self, folder, words, status):
        """A command that looks ends with this status, and the folder is as before."""
        before = state_of(folder)
        ran = self.run(folder, *words.split())
        self.expect(f"{folder}: {words}: status {ran.returncode}, not {status}", ran.returncode == status)
        self.expect(f"{folder}: {words} changed it", state_of(folder) == before)

    def make(self, name):
        folder = os.path.join(self.work, name)
        self.run(folder, "load", KEYS, 40, "--sync-each", 100, "--target", "20KB")
        self.run(folder, "append", 7, "one", "two", "three")
        self.run(folder, "put", 3, "key", "value")
        with open(os.path.join(folder, "notes"), "w", encoding="ascii") as file:
            file.write("a file that is no log's")
        return folder

    def looks(self):
        whole = self.make("whole")
        broken = os.path.join(self.work, "broken")
        shutil.copytree(whole, broken)
        with open(os.path.join(broken, f"{3:016}.raftlog"), "r+b") as file:
            file.seek(9000)
            file.write(b"\xff")
        bare = os.path.join(self.work, "bare")
        shutil.copytree(whole, bare)
        os.unlink(os.path.join(bare, "LOCK"))
        for words, status, other in zip(LOOKS, WHOLE, BROKEN):
            self.leaves(whole, words, status)
            self.leaves(bare, words, status)
            self.leaves(broken, words, other)
        missing = os.path.join(self.work, "missing")
        self.expect("a look at a missing folder", self.run(missing, "stat").returncode == 1)
        self.expect("a look makes no folder", not os.path.exists(missing))
        return whole, broken

    def copies(self, whole):
        before = state_of(whole)
        copy = os.path.join(self.work, "copy")
        self.expect("a fork", self.run(whole, "fork", copy).returncode == 0)
        self.expect("a fork leaves its source", state_of(whole) == before)
        for word in ("list", "entries 7", "stat"):
            words = word.split()
            same = self.run(whole, *words).stdout == self.run(copy, *words).stdout
            self.expect(f"a fork has what its source has: {word}", same)
        self.expect("a fork over a log", self.run(whole, "fork", copy).returncode == 1)

    def repairs(self, broken):
        with open(os.path.join(broken, f"{3:016}.raftlog"), "rb") as file:
            whole = file.read()
        self.expect("a repair that would cut the middle", self.run(broken, "repair").returncode == 1)
        ran = self.run(broken, "repair", "--mode", "any")
        self.expect("a repair", ran.returncode == 0)
        kept = [name for name in os.listdir(broken) if ".cut-" in name]
        self.expect("a repair keeps what it cuts", len(kept) == 1)
        with open(os.path.join(broken, f"{3:016}.raftlog"), "rb") as file:
            left = file.read()
        for name in kept:
            with open(os.path.join(broken, name), "rb") as file:
                self.expect("what is kept", left + file.read() == whole)
        self.expect("a repaired folder", self.run(broken, "check").returncode == 0)

    def lines(self, whole):
        for form in ([], ["--hex"], ["--json"]):
            told = self.run(whole, "scan", 1, *form).stdout
            put = self.run(whole, "lines", 20, "-", *form, input=told)
            self.expect(f"lines {form}", put.returncode == 0)
            self.expect(f"lines {form} read back", self.run(whole, "scan", 20, *form).stdout == told)
            self.run(whole, "clean", 20)

    def rewrites(self, whole):
        told = self.run(whole, "list").stdout
        for words in ("rewrite append", "rewrite rewrite", "rewrite stale", "purge"):
            self.expect(words, self.run(whole, *words.split()).returncode == 0)
            self.expect(f"{words} loses a key", self.run(whole, "list").stdout == told)

    def purges(self, thresholds):
        """Files that a purge dropped are told as kept, not as damage or as freed."""
        folder = os.path.join(self.work, "purged")
        words = ["--settings", thresholds]
        self.run(folder, "load", 300, 40, "--sync-each", 100, *words)
        before = logs_in(folder)
        ran = self.run(folder, "purge", *words)
        gone, reserved = before - logs_in(folder), reserved_in(folder)
        self.expect("a purge drops files", ran.returncode == 0 and gone and reserved)
        told = numbers_in(ran.stdout)
        self.expect("how many are gone", told["dropped"] == len(gone))
        self.expect("how many are kept", told["reserved"] == len(reserved))
        checked = self.run(folder, "check", *words)
        lines = [line.split()[1].decode() for line in checked.stdout.splitlines() if line.startswith(b"reserved ")]
        self.expect("check tells reserved files", checked.returncode == 0 and set(lines) == reserved)
        told = numbers_in(self.run(folder, "stat", *words).stdout)
        self.expect("stat tells reserved files", told["reserved"] == len(reserved) and told["cut"] == 0)
        sizes = sum(os.path.getsize(os.path.join(folder, name)) for name in reserved)
        self.expect("stat tells their bytes", told["reserved-bytes"] == sizes)
        self.leaves(folder, "stat --mode any", 0)
        self.run(folder, "put", 1, "key", "value", *words)
        self.expect("the next opening deletes them", not reserved_in(folder))

    def killed(self, thresholds):
        """A writer that uses files again is killed: what an earlier use left in the last file is no damage."""
        stale = 0
        for turn in range(8):
            folder = os.path.join(self.work, f"killed-{turn}")
            words = [self.program, folder, "load", 1000000, 40, "--sync-each", 1, "--purge-each", 20, "--settings", thresholds]
            loading = subprocess.Popen([*map(str, words)], stdout=subprocess.PIPE, stderr=subprocess.DEVNULL)
            for _ in range(200 + 3 * turn):
                loading.stdout.readline()
            loading.kill()
            loading.wait()
            loading.stdout.close()
            checked = self.run(folder, "check", "--settings", thresholds)
            # What a purge dropped may stand behind a missing number, and less than a record of an earlier
            # file behind the last record: neither can be told from a loss.
            lost = int(re.search(rb"mode tail .*bytes-lost (\d+)", checked.stdout)[1])
            sound = 6 if b"plan passed" in checked.stdout else 4 if 0 < lost < RECORD else 0
            self.expect(f"a killed writer's files are sound: {checked.stdout}", checked.returncode == sound)
            told = self.run(folder, "stat", "--settings", thresholds)
            numbers = numbers_in(told.stdout)
            self.expect("nothing else is cut", numbers["cut"] == lost < RECORD)
            self.expect("check and stat tell the same", (b"rest stale" in checked.stdout) == (numbers["stale"] > 0))
            stale += numbers["stale"] > 0
        self.expect("stale bytes are told", stale > 0)

    def dropped(self, thresholds):
        """A look begins again where a writer drops a file under it."""
        folder = os.path.join(self.work, "dropped-under")
        words = [self.program, folder, "load", 1000000, 40, "--sync-each", 1, "--purge-each", 50, "--settings", thresholds]
        loading = subprocess.Popen([*map(str, words)], stdout=subprocess.PIPE, stderr=subprocess.DEVNULL)
        for _ in range(100):
            loading.stdout.readline()
        for words in ["list", "stat", "check", "dump"] * 5:
            ran = self.run(folder, words, "--settings", thresholds)
            is_told = words in ("check", "dump") or b"is open already" in ran.stderr
            # A dump prints as it reads, so it cannot begin again.
            is_cut = words == "dump" and b"a writer cut it while it was read" in ran.stderr
            self.expect(f"{words} beside a writer: {ran.stderr}", is_cut or ran.returncode != 1 and is_told)
        loading.kill()
        loading.wait()
        loading.stdout.close()

    def pipes(self):
        """A pipe in the lock's place is refused at once."""
        folder = os.path.join(self.work, "pipe")
        self.run(folder, "load", 6, 40)
        os.unlink(os.path.join(folder, "LOCK"))
        os.mkfifo(os.path.join(folder, "LOCK"))
        for words in ("list", "check", "put 1 a b", "repair"):
            ran = self.run(folder, *words.split())
            self.expect(f"{words}: a pipe as the lock: {ran.stderr}", ran.returncode in (1, 5) and b"LOCK" in ran.stderr)

    def searches(self):
        """A search for stale records ends, and says so."""
        folder = os.path.join(self.work, "heads")
        self.run(folder, "load", 6, 40)
        add(os.path.join(folder, f"{1:016}.raftlog"), HEAD * (1 << 16))
        begun = resource.getrusage(resource.RUSAGE_CHILDREN).ru_utime
        ran = self.run(folder, "check")
        self.expect(f"check says that a search ended: {ran.stdout}", ran.returncode == 4 and b"rest unsearched" in ran.stdout)
        self.expect("stat and get read it", [self.run(folder, *it).returncode for it in (["stat"], ["get", 1, 1])] == [0, 0])
        taken = resource.getrusage(resource.RUSAGE_CHILDREN).ru_utime - begun
        self.expect(f"a search is short: {taken:.0f} s", taken < 40)
        ran = self.run(folder, "put", 1, "a", "b")
        self.expect(f"a change is refused: {ran.stderr}", ran.returncode == 7 and b"too much looks like records" in ran.stderr)

    def unread(self):
        """An opening that wants no reserved file reads none."""
        folder = os.path.join(self.work, "unread")
        self.run(folder, "load", 6, 40)
        reserved = os.path.join(folder, f"{1:016}.raftlog.reserved")
        with open(reserved, "wb") as file:
            file.truncate(64 * GB)
        add(os.path.join(folder, f"{1:016}.raftlog"), HEAD)
        flip(os.path.join(folder, f"{1:016}.raftlog"), 100)
        limit = lambda: resource.setrlimit(resource.RLIMIT_AS, (8 * GB, 8 * GB))
        ran = self.run(folder, "put", 1, "a", "b", preexec_fn=limit)
        refused = ran.returncode == 7 and os.path.getsize(reserved) == 64 * GB
        self.expect(f"a refused change leaves them: {ran.returncode} {ran.stderr}", refused)
        ran = self.run(folder, "put", 1, "a", "b", "--cut", preexec_fn=limit)
        self.expect(f"they are deleted: {ran.stderr}", ran.returncode == 0 and not reserved_in(folder))

    def second_folder(self):
        """A second folder that isn't there holds no file, and is not made."""
        folder = os.path.join(self.work, "one-of-two")
        self.run(folder, "load", 20, 40)
        for word in ("stat", "check", "get 1 5", "list"):
            self.leaves(folder, f"{word} --spill second", 0)
        ran = self.run(folder, "fork", os.path.join(self.work, "one-of-two-copied"), "--spill", "second")
        self.expect(f"a fork of it: {ran.stderr}", ran.returncode == 0)

    def holes(self):
        folder = os.path.join(self.work, "holes")
        for words in ("append 7 a b c", "append 8 a b", "compact 7 4", "append 7 d e --at 9"):
            self.run(folder, *words.split())
        ran = self.run(folder, "consistency")
        self.expect("a hole", ran.returncode == 3 and ran.stdout == b"group 7 hole-after 3\n")
        ran = self.run(folder, "consistency", "--json", "--threads", 1)
        self.expect("a hole as an object", ran.stdout == b'{"group":7,"hole-after":3}\n')

    def locked(self):
        """A change says who has the folder, and waits where it is told to."""
        folder = os.path.join(self.work, "locked")
        self.run(folder, "load", 60, 40000)
        looking = subprocess.Popen([self.program, folder, "dump"], stdout=subprocess.PIPE, stderr=subprocess.DEVNULL)
        looking.stdout.read(10)
        ran = self.run(folder, "put", 1, "a", "b")
        self.expect(f"it is being looked at: {ran.stderr}", ran.returncode == 1 and b"looked at" in ran.stderr)
        waiting = subprocess.Popen([self.program, folder, "put", "1", "a", "b", "--wait", "20"])
        looking.stdout.close()
        looking.wait()
        self.expect("a change waits", waiting.wait(timeout=60) == 0)
        look = subprocess.Popen([self.program, folder, "list", "--json"], stdout=subprocess.PIPE)
        look.stdout.read(10)
        look.stdout.close()
        look.wait()

    def settings(self):
        folder = os.path.join(self.work, "settings")
        self.run(folder, "load", 6, 40)
        cases = [
            ('purge-threshold = "1GB"\ntarget-file-size = "12XB"\n', [b"line 2", b"12XB", b"a size"]),
            ("recovery-mode = 3\n", [b"line 1", b"recovery-mode = 3", b"absolute-consistency"]),
            ("\n\n= 5\n", [b"line 3", b"no TOML"]),
        ]
        path = os.path.join(self.work, "bad.toml")
        for text, words in cases:
            with open(path, "w", encoding="ascii") as file:
                file.write(text)
            ran = self.run(folder, "stat", "--settings", path)
            holds = ran.returncode == 1 and all(word in ran.stderr for word in words)
            self.expect(f"settings {text!r}: {ran.stderr}", holds)
        with open(path, "w", encoding="ascii") as file:
            file.write('target-file-sise = "1MB"\n[raft-engine]\ndir = "x"\n')
        ran = self.run(folder, "stat", "--settings", path)
        holds = ran.returncode == 0 and b"target-file-sise" in ran.stderr and b"raft-engine" in ran.stderr
        self.expect(f"unknown settings are told: {ran.stderr}", holds)
        os.mkfifo(os.path.join(folder, "raftlog.toml"))
        self.expect("a pipe as settings", self.run(folder, "stat").returncode == 1)
        ran = self.run(folder, "stat", "--mode", "foo")
        self.expect("a wrong word is repeated", ran.returncode == 2 and b"foo" in ran.stderr)
        os.unlink(os.path.join(folder, "raftlog.toml"))
        ran = self.run(folder, "get", 1, "none")
        self.expect("what isn't there is told", ran.returncode == 3 and b"no key none" in ran.stderr)
        with open(path, "w", encoding="ascii") as file:
            file.write('target-file-size = "4KB"\npurge-threshold = "8KB"\nprefill-for-recycle = true\n')
        ran = self.run(folder, "put", 1, "a", "b", "--settings", path)
        self.expect(f"a prefill is told: {ran.stderr}", ran.returncode == 0 and b"8192 bytes in all" in ran.stderr)
        sizes = [os.path.getsize(os.path.join(folder, name)) for name in reserved_in(folder)]
        self.expect(f"a prefill is done: {sizes}", sizes == [4096, 4096])
        ran = self.run(folder, "put", 1, "a", "b", "--settings", path)
        self.expect(f"it is done once: {ran.stderr}", ran.returncode == 0 and b"in all" not in ran.stderr)

    def dumps(self):
        folder = os.path.join(self.work, "dumps")
        self.run(folder, "append", 7, "a", "b", "c", "d")
        self.run(folder, "append", 8, "e")
        self.run(folder, "put", 7, "key", "value")
        self.run(folder, "compact", 7, 3)
        name = f"{1:016}.raftlog"
        shutil.copy(os.path.join(folder, name), os.path.join(self.work, name))
        shutil.copy(os.path.join(folder, name), os.path.join(self.work, name + ".bak"))
        for words, kinds in [
            ("--group 7", ["entry"] * 4 + ["put", "compact"]),
            ("--group 8", ["entry"]),
            ("--kind entry --from 2 --to 3", ["entry", "entry"]),
            ("--kind put", ["put"]),
            ("--from 3", ["entry", "entry", "compact"]),
            (f"{self.work}/{name} --kind put", ["put"]),
            (f"{self.work}/{name}.bak --kind put", ["put"]),
        ]:
            ran = self.run(folder, "dump", *words.split(), "--json")
            found = [json.loads(line)["kind"] for line in ran.stdout.splitlines()]
            self.expect(f"dump {words}: {found} {ran.stderr}", ran.returncode == 0 and found == kinds)

    def files(self):
        """Entries and values from files, many in one opening, and their bytes as they are."""
        folder = os.path.join(self.work, "files")
        values = b"".join(b"value %d\n" % number for number in range(30000))
        ran = self.run(folder, "append", 7, "--lines", "-", input=values)
        self.expect(f"entries of lines: {ran.stdout} {ran.stderr}", ran.returncode == 0 and b"30000" in ran.stdout)
        for form in ([], ["--hex"], ["--json"]):
            told = self.run(folder, "entries", 7, *form).stdout
            other = os.path.join(self.work, "other" + "".join(form))
            ran = self.run(other, "lines", 9, "-", "--entries", *form, input=told)
            self.expect(f"entries {form}: {ran.stderr}", ran.returncode == 0)
            self.expect(f"entries {form} read back", self.run(other, "entries", 9, *form).stdout == told)
        ran = self.run(folder, "lines", 9, "-", "--entries", input=b"1\ta\n3\tb\n")
        self.expect("entries with a hole", ran.returncode == 1 and b"3" in ran.stderr)
        data = bytes(range(256))
        path = os.path.join(self.work, "data")
        with open(path, "wb") as file:
            file.write(data)
        self.run(folder, "put", 1, "key", "@" + path)
        self.expect("raw bytes", self.run(folder, "get", 1, "key", "--raw").stdout == data)
        self.run(folder, "append", 8, "@" + path)
        self.expect("raw bytes of an entry", self.run(folder, "entry", 8, 1, "--raw").stdout == data)

    def dry_runs(self, thresholds):
        folder = os.path.join(self.work, "dry")
        words = ["--settings", thresholds]
        self.run(folder, "load", 300, 40, "--sync-each", 100, *words)
        before = state_of(folder)
        for command in ("purge", "rewrite append", "rewrite stale", "repair"):
            ran = self.run(folder, *command.split(), "--dry-run", *words)
            self.expect(f"{command} --dry-run: {ran.stderr}", ran.returncode == 0 and state_of(folder) == before)
        dry = numbers_in(self.run(folder, "purge", "--dry-run", *words).stdout)
        real = numbers_in(self.run(folder, "purge", *words).stdout)
        self.expect(f"a dry run drops what a purge drops: {dry} {real}", dry["dropped"] == real["dropped"] > 0)
        ran = self.run(folder, "purge")
        self.expect(f"why nothing was dropped: {ran.stderr}", b"purge-threshold" in ran.stderr)

    def documents(self):
        folder = self.make("document")
        ran = self.run(folder, "stat", "--json")
        told = json.loads(ran.stdout)
        sizes = {name: os.path.getsize(os.path.join(folder, name)) for name in logs_in(folder)}
        self.expect("stat is one document", {it["file"]: it["size"] for it in told["by-file"]} == sizes)
        self.expect("its groups", [it["group"] for it in told["by-group"]] == [1, 3, 7])
        live = sum(it["live"] for it in told["by-group"])
        self.expect("its live bytes", live == told["live"] == sum(it["live"] for it in told["by-file"]) > KEYS * 40)
        ran = subprocess.run([self.program, "--version"], capture_output=True, timeout=20)
        self.expect("the version", ran.returncode == 0 and b"0.2.0" in ran.stdout and b"commit unknown" in ran.stdout)
        stamped = os.path.join(self.work, "stamped")
        subprocess.run([sys.executable, STAMP, self.program, stamped], check=True)
        ran = subprocess.run([stamped, "--version"], capture_output=True, timeout=20)
        self.expect("the commit", ran.returncode == 0 and re.search(rb"commit [0-9a-f]{34}([0-9a-f]{6}|-dirty)\n", ran.stdout))
        ran = subprocess.run([self.program, "--completion"], capture_output=True, timeout=20)
        script = ran.stdout + b"COMP_WORDS=(raftctl log ge); COMP_CWORD=2; _raftctl; echo ${COMPREPLY[@]}"
        found = subprocess.run(["bash"], input=script, capture_output=True, timeout=20)
        self.expect(f"a completion: {found.stderr}", found.stdout == b"get\n")


def main():
    arguments = argparse.ArgumentParser(description=__doc__, formatter_class=argparse.RawDescriptionHelpFormatter)
    arguments.add_argument("program")
    arguments.add_argument("--all", action="store_true")
    arguments.add_argument("--without", nargs="+", default=[])
    asked = arguments.parse_args()
    for name in asked.without:
        setattr(Tests, name, lambda self: print("not tried: cases that were left out"))
    with tempfile.TemporaryDirectory() as work:
        tests = Tests(asked.program, work)
        whole, broken = tests.looks()
        tests.copies(whole)
        tests.repairs(broken)
        tests.lines(whole)
        tests.rewrites(whole)
        thresholds = os.path.join(work, "thresholds.toml")
        with open(thresholds, "w", encoding="ascii") as file:
            file.write('target-file-size = "1KB"\npurge-threshold = "8KB"\n')
        tests.purges(thresholds)
        tests.killed(thresholds)
        tests.dropped(thresholds)
        tests.pipes()
        tests.searches()
        tests.unread()
        tests.second_folder()
        tests.holes()
        tests.guarded()
        tests.torn()
        tests.repairs_again()
        tests.refused_repairs()
        tests.passed()
        tests.left_out()
        tests.gone_queue()
        tests.table()
        tests.plans()
        tests.mends_keep()
        tests.shells()
        tests.links_to_folders()
        tests.linked_files()
        tests.permissions()
        tests.foreign_notes()
        tests.unread_notes()
        tests.open_logs()
        tests.own_locks()
        tests.one_mend()
        tests.partial_sources()
        tests.left_out_sources()
        tests.left_over_sources()
        tests.replaced_entries()
        tests.commanded_entries()
        tests.changed_contents()
        tests.targets_inside()
        tests.targets_beside_files()
        tests.unreadable_files()
        tests.failed_imports()
        tests.noted()
        tests.gap_without_note()
        tests.killed_first()
        tests.killed_closes()
        tests.other_file_system()
        tests.strays()
        tests.copies_below()
        tests.agreements()
        tests.refused_openings()
        tests.big_tails()
        tests.indexes()
        tests.failed_changes()
        tests.broken_off()
        tests.foreseen()
        tests.locked()
        tests.settings()
        tests.dumps()
        tests.damaged_dumps()
        tests.damaged_first_file()
        tests.absent_files()
        tests.files()
        tests.dry_runs(thresholds)
        tests.documents()
        tests.killed_forks()
        tests.killed_rescues()
        tests.refused_calls()
        tests.long_paths()
        tests.closed_streams()
        tests.limited_output()
        tests.limited_changes()
    print(f"{tests.tried} cases, {tests.bad} wrong", flush=True)
    here = os.path.dirname(os.path.abspath(__file__))
    failed = [name for name in (OTHERS if asked.all else [])
              if subprocess.run([sys.executable, "-B", os.path.join(here, name), asked.program]).returncode]
    return 1 if tests.bad or failed else 0


if __name__ == "__main__":
    sys.exit(main())
