"""What `salvage` and `import --from-folder` say of zeros, of lost entries, and of logs that are whole or open."""
import json
import os
import shutil
import subprocess

from folders import HEADER, bytes_of, logs_in, records_of, state_of


ALIGNMENT = 512    # of a file that another program wrote


def padded(data):
    return data + bytes(-len(data) % ALIGNMENT)


class Gaps:
    """Cases of `rescue_tests.py`."""

    def zeros(self):
        """Zeros are a place that can't be read, unless they end a queue's last file: that is room made ahead."""
        rows = [
            ("emptied", lambda data, at: b"", 0),
            ("header-only-zeros", lambda data, at: bytes(len(data)), 0),
            ("from-a-record", lambda data, at: data[:at] + bytes(len(data) - at), None),
            ("more", lambda data, at: data + bytes(700), None),
            ("begin", lambda data, at: bytes(HEADER) + data[HEADER:], 0),
        ]
        for name, change, place in rows:
            folder = self.numbered(f"zeros-{name}")
            files = sorted(n for n in logs_in(folder) if n.endswith(".raftlog"))
            path = os.path.join(folder, files[2])
            data = bytes_of(path)
            found, end = records_of(data)
            with open(path, "wb") as file:
                file.write(change(data, found[3][0]))
            if place is None:
                place = found[3][0] if name == "from-a-record" else end
            self.is_reported(name, folder, f"unread {files[2]} offset {place} bytes ".encode(), 5)

    def numbered(self, name):
        """A log of numbered keys in small files."""
        folder = self.place(name)
        self.run(folder, "load", 90, 40, "--target", "1KB")
        return folder

    def is_reported(self, name, folder, line, checked):
        """`salvage` and `import` bring back the same, and both say that it is not all."""
        ran, before = self.run(folder, "check"), state_of(folder)
        self.expect(f"{name}: check: {ran}", ran.returncode == checked)
        saved, taken = self.place(f"{name}-saved"), self.place(f"{name}-taken")
        ran = self.run(folder, "salvage", saved)
        self.expect(f"{name}: salvage: {ran}", ran.returncode == 4 and line in ran.stdout)
        ran = self.run(taken, "import", "--from-folder", folder)
        self.expect(f"{name}: import: {ran}", ran.returncode == 7 and line in ran.stdout and not os.path.exists(taken))
        ran = self.run(taken, "import", "--from-folder", folder, "--cut")
        same = self.sum_of(saved) == self.sum_of(taken) != b""
        self.expect(f"{name}: import --cut: {ran}", ran.returncode == 4 and same)
        self.expect(f"{name}: the log is as before", state_of(folder) == before)

    def kept_zeros(self):
        """What a repair cut off begins with zeros in place of a record."""
        folder = self.place("kept-zeros")
        self.run(folder, "load", 60, 40)
        path = os.path.join(folder, f"{1:016}.raftlog")
        at, _, block, footer = records_of(bytes_of(path))[0][8]
        self.hurt(path, at, 16 + len(block) + len(footer), "zeros")
        self.expect("a put", self.run(folder, "put", 1, "a", "b").returncode == 7)
        ran = self.run(folder, "repair")
        kept = f"{1:016}.raftlog.cut-{at}"
        self.expect(f"a repair: {ran}", ran.returncode == 0 and os.path.exists(os.path.join(folder, kept)))
        saved = self.place("kept-zeros-saved")
        ran = self.run(folder, "salvage", saved)
        line = f"unread {kept} offset 0 bytes ".encode()
        self.expect(f"salvage after a repair: {ran}", ran.returncode == 4 and line in ran.stdout)
        keys = self.run(saved, "scan", 1).stdout.splitlines()
        self.expect(f"all other keys: {len(keys)}", len(keys) == 59)

    def gaps(self):
        """Entries that are lost between others of a group: both say so, and neither returns 0."""
        folder = self.place("gaps")
        for turn in range(6):
            self.run(folder, "append", 1, *[f"entry {turn} {each} " * 9 for each in range(20)], "--target", "1KB")
        files = sorted(n for n in logs_in(folder) if n.endswith(".raftlog"))
        self.expect(f"a file for each record: {files}", len(files) == 6)
        os.truncate(os.path.join(folder, files[3]), HEADER)
        self.is_reported("gaps", folder, b"group 1 missing-from 61 to 80\n", 0)
        ran = self.run(folder, "salvage", self.place("gaps-again"), "--json")
        wanted = [{"group": 1, "first": 81, "last": 120, "keys": 0}, {"group": 1, "missing-from": 61, "to": 80}]
        wanted += [{"group": 1, "left-out-from": 1, "to": 60}]
        told = [json.loads(line) for line in ran.stdout.splitlines()]
        self.expect(f"the lines: {told}", all(line in told for line in wanted) and ran.returncode == 4)
        ran = self.run(folder, "consistency")
        self.expect(f"consistency of a gap: {ran}", ran.returncode == 3)
        self.run(folder, "put", 2, "k", "v")
        ran = self.run(self.place("gaps-other"), "import", "--from-folder", folder, "--group", 2)
        self.expect(f"another group has none: {ran}", ran.returncode == 0 and b"group" not in ran.stdout)
        ran = self.run(self.place("gaps-dry"), "import", "--from-folder", folder, "--dry-run")
        self.expect(f"a dry import: {ran}", ran.returncode == 7)
        ran = self.run(folder, "salvage", self.place("gaps-dry"), "--dry-run")
        self.expect(f"a dry salvage: {ran}", ran.returncode == 4 and not os.path.exists(self.place("gaps-dry")))
        self.run(folder, "append", 1, "later")
        ran = self.run(self.place("gaps-later"), "import", "--from-folder", folder)
        self.expect(f"after an opening that accepted it: {ran}", ran.returncode == 7)
        self.run(folder, "compact", 1, 81)
        self.is_sound("a gap that is compacted away", folder)

    def rewritten_gaps(self):
        """A gap after rewritten entries may be sound: it is printed, and the status stays."""
        folder = self.place("rewritten-gaps")
        settings = self.place("no-recycling.toml")
        with open(settings, "w", encoding="ascii") as file:
            file.write('target-file-size = "1KB"\npurge-threshold = "4KB"\nenable-log-recycle = false\n')
        for turn in range(3):
            self.run(folder, "append", 1, *[f"entry {turn} {each} " * 9 for each in range(10)], "--settings", settings)
            if turn == 0:
                self.run(folder, "rewrite", "append", "--settings", settings)
        files = sorted(n for n in logs_in(folder) if n.endswith(".raftlog"))
        path = os.path.join(folder, files[-2])
        self.expect(f"entries 11 to 20 are in {files[-2]}", b"entry 1 9" in bytes_of(path))
        os.truncate(path, HEADER)
        lines = [b"group 1 missing-from 11 to 20\n", b"group 1 left-out-from 1 to 10\n"]
        saved, taken = self.place("rewritten-saved"), self.place("rewritten-taken")
        for target, words in ((saved, [folder, "salvage", saved]), (taken, [taken, "import", "--from-folder", folder])):
            ran = self.run(*words)
            told = all(line in ran.stdout for line in lines)
            self.expect(f"{words}: {ran}", ran.returncode == 0 and told)
            self.expect(f"{words}: entries", self.run(target, "entries", 1).stdout.startswith(b"21\t"))

    def aligned(self):
        """Zeros that pad records are no loss, nor are those in what a repair cut off."""
        folder = self.place("aligned")
        self.run(folder, "load", 60, 40)
        path = os.path.join(folder, f"{1:016}.raftlog")
        data = bytes_of(path)
        out, ends = padded(data[:61] + ALIGNMENT.to_bytes(8, "big")), []
        for at, _, block, footer in records_of(data)[0]:
            record = data[at : at + 16 + len(block) + len(footer)]
            ends.append(len(out) + len(record))
            out += padded(record)
        with open(path, "wb") as file:
            file.write(out)
        self.is_sound("aligned", folder)
        # The padding before the broken record is read with it.
        end = ends[19]
        self.hurt(path, end + -end % ALIGNMENT, 60, "header")
        saved = self.place("aligned-saved")
        for name, place in ((f"{1:016}.raftlog", end), (f"{1:016}.raftlog.cut-{end}", 0)):
            if place == 0:
                ran = self.run(folder, "repair")
                self.expect(f"a repair: {ran}", ran.returncode == 0 and name.encode() in ran.stdout)
            ran = self.run(folder, "salvage", saved)
            unread = [line for line in ran.stdout.splitlines() if line.startswith(b"unread ")]
            told = len(unread) == 1 and unread[0].startswith(f"unread {name} offset {place} bytes ".encode())
            keys = len(self.run(saved, "scan", 1).stdout.splitlines())
            self.expect(f"aligned, {name}: {keys} keys, {unread}", ran.returncode == 4 and told and keys == 59)
            shutil.rmtree(saved)

    def sound_gaps(self):
        """A hole after entries of the Rewrite queue, whose `compact` a purge dropped with its file, is no loss."""
        folder, words = self.place("sound-gaps"), ["--settings", self.small]
        for first, index in ((1, None), (11, 15), (21, None)):
            self.run(folder, "append", 1, *["entry " * 20] * 10, *words)
            if index:
                self.run(folder, "compact", 1, index, *words)
            self.run(folder, "rewrite", "append", *words)
            self.expect(f"from {first}", self.run(folder, "entry", 1, first + 9).returncode == 0)
        self.is_sound("a compact that is gone", folder)
        for case, commands in (
            ("compact, append on", (["compact", 1, 31], ["append", 1, "a", "b", "--at", 40])),
            ("truncate, append", (["truncate", 1, 41], ["append", 1, "c", "d"], ["rewrite", "append"])),
            ("clean", (["clean", 1], ["append", 1, "e", "f", "--at", 9], ["rewrite", "rewrite"])),
        ):
            for command in commands:
                ran = self.run(folder, *command, *words)
                self.expect(f"{command}: {ran}", ran.returncode == 0)
            self.is_sound(case, folder)

    def is_sound(self, case, folder):
        """Both bring all back, with status 0."""
        saved, taken = self.place("sound-saved"), self.place("sound-taken")
        self.expect(f"{case}: check", self.run(folder, "check").returncode == 0)
        wanted = self.sum_of(folder)
        for target, words in ((saved, [folder, "salvage", saved]), (taken, [taken, "import", "--from-folder", folder])):
            ran = self.run(*words)
            self.expect(f"{case}: {words}: {ran}", ran.returncode == 0 and self.sum_of(target) == wanted != b"")
            shutil.rmtree(target, ignore_errors=True)

    def open_sources(self):
        """A log that a writer has open: nothing that copies it does so, and a dump says that it is no copy."""
        folder = self.place("open")
        writer = subprocess.Popen(
            [self.program, folder, "load", "1000000", "60", "--sync-each", "20", "--settings", self.small],
            stdout=subprocess.PIPE, stderr=subprocess.DEVNULL)
        writer.stdout.readline()
        try:
            target = self.place("open-copy")
            for words in ([folder, "salvage", target], [folder, "fork", target], [target, "import", "--from-folder", folder]):
                ran = self.run(*words)
                told = ran.returncode == 1 and b"open" in ran.stderr and not os.path.exists(target)
                self.expect(f"{words} beside a writer: {ran}", told)
            ran = self.run(folder, "dump", "--kind", "clean")
            self.expect(f"dump beside a writer: {ran}", b"may change" in ran.stderr)
        finally:
            writer.kill()
            writer.wait()
            writer.stdout.close()

    def pipes(self):
        """What a dump leaves out is its status: an import of it sees that only in a shell with pipefail."""
        folder = self.numbered("pipe")
        os.remove(os.path.join(folder, sorted(n for n in logs_in(folder) if n.endswith(".raftlog"))[2]))
        line = f"{self.program} {folder} dump --json --quiet | {self.program} $0 import --quiet"
        for shell, status in (("", 0), ("set -o pipefail; ", 6)):
            ran = subprocess.run(["bash", "-c", shell + line, self.place("piped") + str(status)], capture_output=True, timeout=60)
            self.expect(f"{shell}{line}: {ran}", ran.returncode == status)

    def older_keys(self):
        """A key that was written before a place that can't be read may be older than a lost one."""
        rows = [
            ("header", [[("a", "1")], [("b", "1")], [("c", "1")]], 1, {"a"}),
            ("entries", [[("a", "1"), ("b", "1")], [("a", "2"), 1], [("c", "1")]], 1, {"a"}),
            ("last", [[("a", "1")], [("a", "2"), ("c", "1")]], 1, {"a"}),
            ("again", [[("a", "1")], [("b", "1")], [("a", "2")]], 1, set()),
        ]
        for how, records, damaged, wanted in rows:
            folder, lines = self.place(f"older-{how}"), []
            for number, items in enumerate(records):
                for item in items:
                    place = {"queue": "append", "number": 1, "offset": number, "group": 1}
                    entry = {"kind": "entry", "index": item, "value": "v"}
                    put = {"kind": "put", "key": item[0], "value": item[1]} if isinstance(item, tuple) else None
                    lines.append(json.dumps({**place, **(put or entry)}) + "\n")
            self.run(folder, "import", "-", input="".join(lines).encode())
            path = os.path.join(folder, f"{1:016}.raftlog")
            at, _, block, footer = records_of(bytes_of(path))[0][damaged]
            self.hurt(path, at, 16 + len(block) + len(footer), how if how == "entries" else "header")
            ran = self.run(folder, "salvage", self.place(f"older-{how}-saved"))
            found = {line.split()[3] for line in ran.stdout.decode().splitlines() if " older-key " in line}
            self.expect(f"{how}: older keys {found}: {ran}", ran.returncode == 4 and found == wanted)

    def known_limits(self):
        """Records that no line reports, nor `check`: at the end of a queue's last file zeros are room made ahead."""
        for name, change in (("zeroed", lambda data, at: data[:at] + bytes(len(data) - at)), ("shorter", lambda data, at: data[:at])):
            folder = self.numbered(f"limit-{name}")
            path = os.path.join(folder, sorted(n for n in logs_in(folder) if n.endswith(".raftlog"))[-1])
            data = bytes_of(path)
            with open(path, "wb") as file:
                file.write(change(data, records_of(data)[0][-1][0]))
            self.is_sound(f"{name} at the end", folder)
