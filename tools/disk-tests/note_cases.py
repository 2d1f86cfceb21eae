"""What commands say and do if the note `SPANS` cannot be read, or if its mend needs that no program has the log open."""
import fcntl
import os
import shutil

from folders import bytes_of, logs_in

NOBODY = 65534


class Notes:
    """Cases of `look_tests.py`."""

    def lossy(self, name):
        """A log of which the note knows that file 6 is missing."""
        folder = os.path.join(self.work, name)
        self.run(folder, "load", 90, 40, "--target", "1KB")
        os.unlink(os.path.join(folder, f"{6:016}.raftlog"))
        return folder, os.path.join(folder, "SPANS")

    def kinds_of(self, folder, **more):
        """The kinds of a plan, each with its mend."""
        lines = self.run(folder, "check", **more).stdout.decode().splitlines()
        plan = [line.partition(" mend ") for line in lines if line.startswith("plan ")]
        return {item.split()[1]: mend for item, _, mend in plan}

    def foreign_notes(self):
        """N0: a note of another user is kept: a change fails, and after its mend the loss is still known."""
        if os.geteuid() != 0:
            print("not tried: a note of another user (only root can make it)")
            return
        os.chmod(self.work, 0o755)
        user = {"user": NOBODY, "group": NOBODY, "extra_groups": []}
        for mode, mend in ((0o644, "cp"), (0o600, "none")):
            folder, note = self.lossy(f"foreign-note-{mode:o}")
            for path in [folder] + [os.path.join(folder, name) for name in os.listdir(folder)]:
                os.chown(path, NOBODY, NOBODY)
            os.chown(note, 0, 0)
            os.chmod(note, mode)
            before = bytes_of(note)
            ran = self.run(folder, "check", **user)
            kinds = self.kinds_of(folder, **user)
            self.expect(f"{mode:o}: check: {ran}", ran.returncode == 5 and mend in kinds.get("refused", ""))
            for words in ("put 1 a b", "put 1 a b --cut", "repair", "repair --cut", "purge"):
                ran = self.run(folder, *words.split(), **user)
                told = b"SPANS" in ran.stderr and b"ermission" in ran.stderr
                self.expect(f"{mode:o}: {words}: {ran}", ran.returncode == 1 and told and bytes_of(note) == before)
            for words in ("get 1 5", "dump", "sum"):
                ran = self.run(folder, *words.split(), **user)
                told = b"plan missing" in ran.stderr if mode == 0o644 else b"plan refused path" in ran.stderr
                self.expect(f"{mode:o}: {words}: {ran.stderr}", told and bytes_of(note) == before)
            self.is_partial(folder, f"foreign-note-{mode:o}", "missing" if mode == 0o644 else "refused", user)
            if mend == "none":
                continue
            ran = self.typed(kinds["refused"], **user)
            self.expect(f"{mode:o}: {kinds['refused']}: {ran}", ran.returncode == 0 and bytes_of(note) == before)
            self.expect(f"{mode:o}: the loss is known", "missing" in self.kinds_of(folder, **user))
            self.expect(f"{mode:o}: a put", self.run(folder, "put", 1, "a", "b", **user).returncode == 7)

    def is_partial(self, folder, name, kind, user):
        """D5: no copy of the log is whole for a user who may not read the note: a file may be missing."""
        place = os.path.join(self.work, f"{name}-copies")
        os.mkdir(place)
        os.chown(place, NOBODY, NOBODY)
        for words, status in (("salvage saved", 4), ("fork copy", 5), ("dump", 6 if kind == "missing" else 5)):
            words = [os.path.join(place, word) if word in ("saved", "copy") else word for word in words.split()]
            ran = self.run(folder, *words, **user)
            told = f"plan {kind} path".encode() in ran.stderr
            self.expect(f"{name}: {words}: {ran}", ran.returncode == status and told)
        for more, status in (([], 7), (["--cut"], 4)):
            ran = self.run(os.path.join(place, "imported"), "import", "--from-folder", folder, *more, **user)
            told = f"plan {kind} path".encode() in ran.stderr
            self.expect(f"{name}: import {more}: {ran}", ran.returncode == status and told)

    def unread_notes(self):
        """A file in the note's place that has none is named, kept, and mended by what is printed."""
        out = os.path.join(self.work, "notes-out")
        os.mkdir(out)

        def hold(data):
            def make(note):
                with open(note, "wb") as file:
                    file.write(data)
            return make

        def lead(note):
            kept = os.path.join(out, "kept")
            os.rename(note, kept)
            os.symlink(kept, note)

        def fold(note):
            os.unlink(note)
            os.mkdir(note)

        rows = [
            ("garbage", hold(b"no note"), "mv", False),
            ("empty", hold(b""), "mv", False),
            ("folder", fold, "mv", False),
            ("link", lead, "cp", True),
            ("second", lambda note: os.link(note, os.path.join(out, "second")), "cp", True),
        ]
        for name, make, mend, is_known in rows:
            folder, note = self.lossy(f"unread-note-{name}")
            make(note)
            kinds = self.kinds_of(folder)
            self.expect(f"{name}: {kinds}", mend in kinds.get("note", "") and "missing" not in kinds)
            ran = self.run(folder, "get", 1, 5)
            self.expect(f"{name}: a look: {ran.stderr}", b"plan note path SPANS" in ran.stderr)
            self.typed(kinds["note"])
            kinds = self.kinds_of(folder)
            self.expect(f"{name}: mended: {kinds}", "note" not in kinds and ("missing" in kinds) == is_known)
        folder = os.path.join(self.work, "unread-note-kept")
        self.run(folder, "load", 6, 40)
        hold(b"no note")(os.path.join(folder, "SPANS"))
        ran = self.run(folder, "check")
        self.expect(f"no loss: {ran.stdout}", ran.returncode == 0 and b"plan note" in ran.stdout)
        ran = self.run(folder, "put", 1, "a", "b")
        kept = bytes_of(os.path.join(folder, "SPANS")) == b"no note"
        self.expect(f"a change names it, and keeps it: {ran}", ran.returncode == 0 and b"plan note" in ran.stderr and kept)

    def open_logs(self):
        """N1: no mend puts a copy in the place of a file while a program has the log open, nor of the lock."""
        folder = self.with_second_name(os.path.join(self.work, "open-second"))
        note = os.path.join(folder, "SPANS")
        os.link(note, note + ".other")
        self.expect("closed: copies", all("cp -p" in mend for mend in self.kinds_of(folder).values()))
        with open(os.path.join(folder, "LOCK"), "rb+") as lock:
            fcntl.flock(lock, fcntl.LOCK_EX)
            ran = self.run(folder, "check")
            kinds = self.kinds_of(folder)
            self.expect(f"open: {kinds}", kinds == {"refused": "none", "note": "none"})
            self.expect(f"open: why: {ran.stdout}", ran.stdout.count(b"a program has the log open: stop it") == 2)
        if os.geteuid() != 0:
            return
        os.chmod(self.work, 0o755)
        folder = os.path.join(self.work, "foreign-lock")
        self.run(folder, "load", 6, 40)
        user = {"user": NOBODY, "group": NOBODY, "extra_groups": []}
        for path in [folder] + [os.path.join(folder, name) for name in os.listdir(folder)]:
            os.chown(path, NOBODY, NOBODY)
        os.chown(os.path.join(folder, "LOCK"), 0, 0)
        kinds = self.kinds_of(folder, **user)
        self.expect(f"a lock of another user: {kinds}", kinds == {"refused": "none"})

    def own_locks(self):
        """D3: a change prints the mend that `check` prints: the lock that it holds is no other program's."""
        for name in ("link", "second"):
            folder = os.path.join(self.work, f"own-lock-{name}")
            self.run(folder, "load", 6, 40)
            note, other = os.path.join(folder, "SPANS"), os.path.join(self.work, f"own-lock-{name}-note")
            if name == "link":
                os.rename(note, other)
                os.symlink(other, note)
            else:
                os.link(note, other)
            wanted = self.kinds_of(folder)
            self.expect(f"{name}: check: {wanted}", "cp -p" in wanted.get("note", ""))
            for words in ("put 1 a b", "repair", "purge", "repair --dry-run", "get 1 5", "import --dry-run"):
                ran = self.run(folder, *words.split(), input=b"")
                lines = [line for line in ran.stderr.decode().splitlines() if line.startswith("plan ")]
                kinds = {line.split()[1]: line.partition(" mend ")[2] for line in lines}
                self.expect(f"{name}: {words}: {ran}", ran.returncode == 0 and kinds == wanted)
            self.expect(f"{name}: then it mends", self.typed(wanted["note"]).returncode == 0 and not self.kinds_of(folder))

    def one_mend(self):
        """N3: if a known second folder is away, each item of its loss has the same mend."""
        folder = os.path.join(self.work, "second-away")
        words = ["--target", "1KB", "--spill", "second"]
        self.run(folder, "load", 60, 40, *words)
        second = os.path.join(folder, "second")
        os.makedirs(second, exist_ok=True)
        name = f"{2:016}.raftlog"
        os.rename(os.path.join(folder, name), os.path.join(second, name))
        ran = self.run(folder, "put", 1, "a", "b", *words)
        self.expect(f"with the second folder: {ran}", ran.returncode == 0)
        shutil.move(second, os.path.join(self.work, "second-moved"))
        kinds = self.kinds_of(folder)
        self.expect(f"one mend: {kinds}", kinds == {"missing": "--spill second", "passed": "--spill second"})
        before = logs_in(folder)
        ran = self.run(folder, "put", 1, "a", "b")
        self.expect(f"nothing is moved: {ran}", ran.returncode == 7 and logs_in(folder) == before)
