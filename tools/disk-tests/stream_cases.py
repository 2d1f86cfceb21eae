"""What commands do that are started without some of the standard streams."""
import os
import subprocess

from folders import add, bytes_of

PUT = ("get 1 a", b"b\n")
NO_KEY = ("get 1 a", b"")
NO_ENTRY = ("entries 7", b"")

# What is closed, the command, its status, what it says, and a look at the log with what that prints.
ROWS = [
    ("<&-", "put 1 a -", 1, b"standard input", NO_KEY),
    ("<&-", "append 7 --lines -", 1, b"standard input", NO_ENTRY),
    ("<&-", "lines 1 -", 1, b"standard input", NO_KEY),
    ("<&-", "put 1 a b", 0, b"", PUT),
    ("<&-", "list", 0, b"", NO_KEY),
    (">&-", "load 20 10 --sync-each 5", 1, b"standard output", ("get 1 4", b"4 4 4 4 4 \n")),
    (">&-", "append 7 a", 1, b"standard output", ("entry 7 1", b"a\n")),
    (">&-", "list", 1, b"standard output", NO_KEY),
    (">&-", "--completion", 1, b"standard output", NO_KEY),
    (">&-", "put 1 a b", 0, b"", PUT),
    ("2>&-", "put 1 a b", 0, b"", PUT),
    ("2>&-", "get 1 none", 3, b"", NO_KEY),
    ("<&- >&- 2>&-", "put 1 a b", 0, b"", PUT),
    ("<&- >&- 2>&-", "list", 1, b"", NO_KEY),
]


class Streams:
    """Cases of `look_tests.py`."""

    def closed_streams(self):
        """No file of the log stands for a stream that is closed, and nothing is written that wasn't read."""
        for place, (closed, words, status, said, (look, wanted)) in enumerate(ROWS):
            folder = os.path.join(self.work, f"closed-{place}")
            self.run(folder, "load", 6, 40)
            ran = self.run_closed(closed, folder, words)
            case = f"{words} {closed}: {ran.returncode} {ran.stderr}"
            self.expect(case, ran.returncode == status and said in ran.stderr)
            self.expect(f"{case}: the lock is empty", bytes_of(os.path.join(folder, "LOCK")) == b"")
            found = self.run(folder, *look.split()).stdout
            self.expect(f"{case}: {look}: {found}", found == wanted)
            self.expect(f"{case}: the files are whole", self.run(folder, "check").returncode == 0)
        folder = os.path.join(self.work, "closed-torn")
        self.run(folder, "load", 6, 40)
        add(os.path.join(folder, f"{1:016}.raftlog"), b"torn")
        ran = self.run_closed("2>&-", folder, "put 1 a b")
        self.expect("notes of a cut go into no file", ran.returncode == 0 and self.run(folder, "check").returncode == 0)
        self.expect("nor into the lock", bytes_of(os.path.join(folder, "LOCK")) == b"")

    def run_closed(self, closed, folder, words):
        line = [self.program, *words.split()] if words.startswith("--") else [self.program, folder, *words.split()]
        command = ["sh", "-c", f'exec "$@" {closed}', "sh", *line]
        return subprocess.run(command, stdin=subprocess.DEVNULL, capture_output=True, timeout=120)
