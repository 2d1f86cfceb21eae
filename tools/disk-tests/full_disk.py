#!/usr/bin/env python3
"""What raftctl does on a disk that is full: one of a megabyte, in memory.

    tools/disk-tests/full_disk.py crates/raftctl/out/raftctl

Prints a line for each case that is wrong, and how many there were. Ends with status 1 where one is. Where no disk can be
mounted, it says so and tries nothing.
"""
import errno
import os
import subprocess
import sys
import tempfile

from folders import add, logs_in, reserved_in, state_of
from look_tests import Tests

MOUNT = 'mount -t tmpfs -o size=1m raftlog "$1" && shift && exec "$@"'
SETTINGS = 'target-file-size = "16KB"\npurge-threshold = "32KB"\n'
# More than a block has room for.
LARGE = 20000


class FullDisk(Tests):
    """The log `log` on the disk, and a folder beside it on another one."""

    def __init__(self, program, disk):
        super().__init__(program, disk)
        self.beside = os.path.dirname(disk)
        self.folder = os.path.join(disk, "log")
        self.filler = os.path.join(disk, "filler")
        self.settings = os.path.join(self.beside, "settings.toml")
        with open(self.settings, "w", encoding="ascii") as file:
            file.write(SETTINGS)
        self.large = os.path.join(self.beside, "large")
        with open(self.large, "wb") as file:
            file.write(b"v" * LARGE)

    def do(self, *words):
        return self.run(self.folder, *words, "--settings", self.settings)

    def fill(self):
        """Nothing counts but in the log's last file, and no block of the disk is free."""
        # A file has room for 39 keys.
        for _ in range(13):
            self.do("load", 13, 400)
        self.told = self.do("list").stdout
        with open(self.filler, "ab", buffering=0) as file:
            try:
                while True:
                    file.write(bytes(4096))
            except OSError as error:
                if error.errno != errno.ENOSPC:
                    raise

    def keeps_all(self, case):
        self.expect(f"{case}: all keys stand", self.do("list").stdout == self.told)

    def last(self):
        """The number of the Append queue's last file."""
        return max(int(name[:16]) for name in logs_in(self.folder) if name.endswith(".raftlog"))

    def looks_on(self):
        before = state_of(self.folder)
        for words in ("list", "check", "stat", "dump", "groups", "picture", "purge --dry-run"):
            ran = self.do(*words.split())
            self.expect(f"{words} on a full disk: {ran.stderr}", ran.returncode == 0)
        self.expect("looks leave all", state_of(self.folder) == before)
        copy = os.path.join(self.beside, "copy")
        ran = self.do("fork", copy)
        self.expect(f"a fork to another disk: {ran.stderr}", ran.returncode == 0)
        count = len(logs_in(copy))
        ran = self.run(copy, "purge", "--settings", self.settings)
        self.expect(f"a purge of the copy: {ran.stderr}", ran.returncode == 0 and len(logs_in(copy)) < count)
        self.expect("the copy has all keys", self.run(copy, "list").stdout == self.told)

    def refused_put(self):
        ran = self.do("put", 2, "large", "@" + self.large)
        says = all(word in ran.stderr for word in (b"no space is left", b"free a block", b"confirmed"))
        self.expect(f"a put that finds no space: {ran.returncode} {ran.stderr}", ran.returncode == 1 and says)
        self.keeps_all("behind a refused put")
        ran = self.do("rewrite", "append")
        self.expect(f"a rewriting that finds no space: {ran.stderr}", ran.returncode == 1 and b"free a block" in ran.stderr)
        self.keeps_all("behind a refused rewriting")
        ran = self.do("check")
        self.expect(f"behind a refused put nothing is lost: {ran.stdout}", ran.returncode == 0)

    def empty_last(self):
        """A next file for whose header there was no space hinders no repair."""
        empty = os.path.join(self.folder, f"{self.last():016}.raftlog")
        with open(empty, "rb") as file:
            self.expect("a file is left that holds nothing", not file.read().strip(b"\0"))
        ran = self.do("repair")
        self.expect(f"a repair: {ran.stderr}", ran.returncode == 0 and b"held nothing" in ran.stderr)
        self.expect("the empty file is gone", not os.path.exists(empty))
        self.keeps_all("behind a repair")

    def kept_cut(self):
        path = os.path.join(self.folder, f"{self.last():016}.raftlog")
        size = os.path.getsize(path)
        add(path, b"torn")
        ran = self.do("repair")
        self.expect(f"a cut that can't be kept: {ran.returncode} {ran.stderr}",
                    ran.returncode == 1 and b"--no-keep" in ran.stderr)
        self.expect("it is not made", os.path.getsize(path) == size + 4)
        self.expect("no file of it is left", not [name for name in os.listdir(self.folder) if ".cut-" in name])
        ran = self.do("repair", "--no-keep")
        self.expect(f"a repair without: {ran.stderr}", ran.returncode == 0)
        self.keeps_all("behind a repair")

    def purged(self):
        """A purge that writes nothing frees space, also where there is an empty file."""
        add(os.path.join(self.folder, f"{self.last() + 1:016}.raftlog"), b"")
        count = len(logs_in(self.folder))
        ran = self.do("purge")
        self.expect(f"a purge: {ran.stderr}", ran.returncode == 0 and len(logs_in(self.folder)) < count - 1)
        self.keeps_all("behind a purge")
        self.expect("what it dropped is reserved", reserved_in(self.folder))
        ran = self.do("put", 2, "large", "@" + self.large)
        self.expect(f"then a put finds space: {ran.stderr}", ran.returncode == 0)


def on_disk(program, disk):
    tests = FullDisk(program, disk)
    tests.fill()
    tests.looks_on()
    tests.refused_put()
    tests.empty_last()
    tests.kept_cut()
    tests.purged()
    print(f"{tests.tried} cases, {tests.bad} wrong")
    return 1 if tests.bad else 0


def main():
    if len(sys.argv) == 3:
        return on_disk(*sys.argv[1:])
    user = [] if os.getuid() == 0 else ["--user", "--map-root-user"]
    with tempfile.TemporaryDirectory() as work:
        disk = os.path.join(work, "disk")
        os.mkdir(disk)
        mounted = ["unshare", *user, "--mount", "sh", "-c", MOUNT, "sh", disk]
        if subprocess.run([*mounted, "true"], stderr=subprocess.DEVNULL).returncode != 0:
            print("no disk can be mounted here, the test of a full one is left out")
            return 0
        program = os.path.abspath(sys.argv[1])
        return subprocess.run([*mounted, sys.executable, "-B", __file__, program, disk]).returncode


if __name__ == "__main__":
    sys.exit(main())
