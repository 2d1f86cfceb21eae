"""B10 of the review: a limit of file sizes (`ulimit -f`) is an error of each command, and never ends one by a signal."""
import os
import subprocess

from folders import add, bytes_of, logs_in, state_of

MB = 1 << 20
# Room for log files of 1 KB and a short batch, and not for a batch, a tail or a file of 8 MB.
LIMIT = 6000


class Limits:
    """Cases of `look_tests.py`."""

    def limited(self, kilobytes, *words, to=""):
        """A command under a limit, in a shell."""
        line = f'ulimit -f {kilobytes}; exec "$@" {to}'
        command = ["bash", "-c", line, "bash", self.program, *map(str, words)]
        return subprocess.run(command, capture_output=True, timeout=600)

    def limited_output(self):
        """What a look prints into a file: an error if the file may not become so long."""
        folder = os.path.join(self.work, "limit-looks")
        self.run(folder, "load", 600, 40)
        out = os.path.join(self.work, "limit-out")
        before = state_of(folder)
        for words in ("dump", "scan 1", "list", "stat --json", "check", "sum 1", "picture", "settings", "groups", "entries 1",
                      "consistency", "get 1 5", "get 1 5 --raw", "watch --count 1", "verify 600 40", "repair --dry-run"):
            wanted = self.run(folder, *words.split())
            for kilobytes in (0, 1, 100000):
                ran = self.limited(kilobytes, folder, *words.split(), to=f'> "{out}"')
                fits = len(wanted.stdout) <= kilobytes * 1024
                said = ran.returncode == wanted.returncode if fits else ran.returncode == 1 and b"ulimit -f" in ran.stderr
                self.expect(f"{words}, {kilobytes} KB: {ran}", said and os.path.getsize(out) <= kilobytes * 1024)
                self.limited(kilobytes, folder, *words.split(), to=f'2> "{out}"')
                ran = self.limited(kilobytes, folder, *words.split(), to=f'> "{out}" 2>&1')
                self.expect(f"{words}, {kilobytes} KB, both: {ran}", 0 <= ran.returncode < 128)
        for words in (["--help"], ["help", "put"], ["--completion"], ["--version"]):
            ran = self.limited(0, *words, to=f'> "{out}"')
            self.expect(f"{words}: {ran}", ran.returncode == 1 and os.path.getsize(out) == 0)
        ran = self.limited(0, folder, "get", 1, "none", to=f'2> "{out}"')
        self.expect(f"an error that has no room: {ran}", ran.returncode in (1, 3) and os.path.getsize(out) == 0)
        self.expect("looks change nothing", state_of(folder) == before)

    def limited_changes(self):
        """A kept tail, a fork, a salvage, an import and a value that are too long: nothing of them is written."""
        folder = os.path.join(self.work, "limit-tail")
        self.run(folder, "load", 6, 40)
        add(os.path.join(folder, f"{1:016}.raftlog"), b"\1" * 8 * MB)
        before = {name: bytes_of(os.path.join(folder, name)) for name in os.listdir(folder)}
        for words in ("repair", "put 1 a b", "purge"):
            ran = self.limited(LIMIT, folder, *words.split(), "--target", "1KB")
            after = {name: bytes_of(os.path.join(folder, name)) for name in os.listdir(folder)}
            self.expect(f"a tail: {words}: {ran}", ran.returncode == 1 and b"--no-keep" in ran.stderr and after == before)
        ran = self.limited(LIMIT, folder, "fork", os.path.join(self.work, "limit-fork"))
        made = os.path.exists(os.path.join(self.work, "limit-fork"))
        self.expect(f"a fork: {ran}", ran.returncode == 1 and b"ulimit -f" in ran.stderr and not made)
        ran = self.limited(LIMIT, folder, "repair", "--target", "1KB", "--no-keep")
        self.expect(f"without a kept tail: {ran}", ran.returncode == 0)
        self.long_values()

    def long_values(self):
        source, value = os.path.join(self.work, "limit-source"), os.path.join(self.work, "limit-value")
        with open(value, "wb") as file:
            file.write(b"v" * 5 * MB)
        self.run(source, "put", 1, "key", "@" + value)
        entries = os.path.join(self.work, "limit-entries")
        self.run(entries, "append", 1, "@" + value, "x", "y")
        dump = os.path.join(self.work, "limit-dump")
        with open(dump, "wb") as file:
            file.write(self.run(source, "dump", "--json").stdout)
        pairs = os.path.join(self.work, "limit-pairs")
        with open(pairs, "wb") as file:
            file.write(self.run(source, "scan", 1).stdout)
        target = os.path.join(self.work, "limit-target")
        rows = [
            [target, "put", 1, "key", "@" + value],
            [target, "append", 1, "@" + value],
            [target, "append", 1, "--lines", value],
            [target, "lines", 1, pairs],
            [target, "load", 2, 5 * MB],
            [target, "import", dump],
            [target, "import", "--from-folder", source],
            [source, "salvage", target + "-salvaged"],
            [source, "rewrite", "append"],
            [source, "del", 1, "@" + value],
            [target, "del", 1, "@" + value],
            [entries, "truncate", 1, 2],
            [entries, "truncate", 1, 2, "--no-sync"],
        ]
        wanted = self.run(entries, "sum").stdout
        for words in rows:
            ran = self.limited(LIMIT, *words, "--target", "1KB")
            self.expect(f"{words}: {ran}", ran.returncode == 1 and b"ulimit -f" in ran.stderr)
            self.expect(f"{words}: the log is whole", self.run(words[0], "check").returncode == 0)
            ran = self.run(source, "get", 1, "key", "--raw")
            self.expect(f"{words}: the source has its value", ran.stdout == b"v" * 5 * MB)
        self.expect("no entry is removed", self.run(entries, "sum").stdout == wanted)
        ran = self.limited(LIMIT, entries, "truncate", 1, 1, "--target", "1KB")
        self.expect(f"nothing long is written: {ran}", ran.returncode == 0 and ran.stdout == b"removed 3\n")
        self.expect("no name of a salvage", not os.path.exists(target + "-salvaged"))
        ran = self.run(target, "list")
        self.expect(f"nothing is there: {ran}", ran.returncode == 0 and not ran.stdout and len(logs_in(target)) == 2)
