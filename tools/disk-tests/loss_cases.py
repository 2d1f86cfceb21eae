"""What commands that change a log do where its opening loses something."""
import errno
import os
import shutil

from folders import add, bytes_of, flip, logs_in, state_of


class Losses:
    """Cases of `look_tests.py`."""

    def flipped(self, name, at=None):
        """A folder with one log file, one of whose bytes is another, and that file's path."""
        folder = os.path.join(self.work, name)
        self.run(folder, "load", 60, 40)
        path = os.path.join(folder, f"{1:016}.raftlog")
        if at is None:
            at = os.path.getsize(path) // 6
        flip(path, at)
        return folder, path

    def guarded(self):
        """Whole records behind a break are cut by no command that isn't told to, and what is cut is kept."""
        folder, path = self.flipped("flipped")
        before = state_of(folder)
        for words in ("put 1 a b", "del 1 5", "append 7 x", "clean 1", "purge", "rewrite append", "load 3 3"):
            ran = self.run(folder, *words.split())
            self.expect(f"{words} is refused: {ran.returncode} {ran.stderr}", ran.returncode == 7)
            for word in (b"`check`", b"`--cut`", b"whole records", b" mend raftctl "):
                self.expect(f"{words} says {word}", word in ran.stderr)
        self.expect("a refused change changes nothing", state_of(folder) == before)
        whole = bytes_of(path)
        ran = self.run(folder, "put", 1, "a", "b", "--cut")
        kept = [name for name in os.listdir(folder) if ".cut-" in name]
        self.expect("a change that may cut", ran.returncode == 0 and len(kept) == 1)
        self.expect(f"a cut is told: {ran.stderr}", kept and kept[0].encode() in ran.stderr)
        at = int(kept[0].rsplit("-", 1)[1])
        self.expect("a cut is kept", whole == whole[:at] + bytes_of(os.path.join(folder, kept[0])))
        self.expect("the key stands", self.run(folder, "get", 1, "a").stdout == b"b\n")

    def torn(self):
        """An unsynced tail is cut off by any change, which says so and keeps it."""
        folder = os.path.join(self.work, "torn")
        self.run(folder, "load", 6, 40)
        path = os.path.join(folder, f"{1:016}.raftlog")
        size = os.path.getsize(path)
        add(path, b"torn")
        ran = self.run(folder, "put", 1, "a", "b")
        kept = os.path.join(folder, f"{1:016}.raftlog.cut-{size}")
        self.expect("a torn tail hinders no change", ran.returncode == 0 and b"plan tail" in ran.stderr and b"broken at" in ran.stderr)
        self.expect("a torn tail is kept", os.path.exists(kept) and bytes_of(kept) == b"torn")
        add(path, b"torn")
        ran = self.run(folder, "put", 1, "a", "b", "--no-keep")
        self.expect("no file is kept", ran.returncode == 0 and len([it for it in os.listdir(folder) if "cut-" in it]) == 1)

    def repairs_again(self):
        """A repair at the place of an earlier one leaves what that kept."""
        folder = os.path.join(self.work, "again")
        self.run(folder, "load", 6, 40)
        path = os.path.join(folder, f"{1:016}.raftlog")
        kept = f"{path}.cut-{os.path.getsize(path)}"
        for turn, data in enumerate((b"first", b"and second", b"3")):
            add(path, data)
            self.expect("a repair", self.run(folder, "repair").returncode == 0)
            name = kept if turn == 0 else f"{kept}.{turn + 1}"
            self.expect(f"repair {turn} keeps its own", os.path.exists(name) and bytes_of(name) == data)
        self.expect("the first one stays", bytes_of(kept) == b"first")

    def refused_repairs(self):
        """A repair that is refused tells no cut and leaves no file; one needs no second folder."""
        folder = self.make("refused")
        flip(os.path.join(folder, f"{2:016}.raftlog"), 9000)
        self.run(folder, "rewrite", "rewrite")
        add(os.path.join(folder, f"{1:016}.rewrite"), b"torn")
        before = state_of(folder)
        ran = self.run(folder, "repair")
        self.expect(f"a refused repair: {ran.stdout}", ran.returncode == 1 and b"cut" not in ran.stdout)
        self.expect("it leaves all as it was", state_of(folder) == before)
        settings = os.path.join(self.work, "second.toml")
        with open(settings, "w", encoding="ascii") as file:
            file.write('spill-dir = "second"\n')
        folder = os.path.join(self.work, "no-second")
        self.run(folder, "load", 6, 40)
        ran = self.run(folder, "repair", "--settings", settings)
        self.expect(f"a repair without the second folder: {ran.stderr}", ran.returncode == 0)

    def passed(self):
        """Files behind a missing number are a loss, which check, looks and changes tell."""
        folder = self.make("gap")
        gone = os.path.join(folder, f"{3:016}.raftlog")
        files = [f"{number:016}.raftlog" for number in (1, 2)]
        size = sum(os.path.getsize(os.path.join(folder, name)) for name in files)
        os.rename(gone, os.path.join(self.work, "gone"))
        self.passes(folder, f"files 2 at 0 bytes {size}", "numbers 1 to 2 of queue append: number 3 is missing")
        os.rename(os.path.join(self.work, "gone"), gone)
        self.expect("with the file all is there", self.run(folder, "check").returncode == 0)
        os.mkdir(os.path.join(folder, "second"))
        os.rename(gone, os.path.join(folder, "second", os.path.basename(gone)))
        self.expect("with the second folder too", self.run(folder, "check", "--spill", "second").returncode == 0)
        second = f"plan left-out path second files 1"
        self.passes(folder, f"files 2 at 0 bytes {size}", "numbers 1 to 2 of queue append: number 3 is missing", second)
        foreign = os.path.join(self.work, "foreign")
        self.run(foreign, "load", 60, 40)
        size = os.path.getsize(os.path.join(foreign, f"{1:016}.raftlog"))
        # A header alone, and no note of the numbers.
        os.unlink(os.path.join(foreign, "SPANS"))
        shutil.copy(os.path.join(foreign, f"{1:016}.rewrite"), os.path.join(foreign, f"{9:016}.raftlog"))
        self.passes(foreign, f"files 1 at 0 bytes {size}", "numbers 1 to 1 of queue append: number 2 is missing")
        ran = self.run(foreign, "repair", "--cut")
        aside = os.path.join(foreign, f"{1:016}.raftlog.passed")
        self.expect(f"a repair moves them aside: {ran.stderr}", ran.returncode == 0 and os.path.getsize(aside) == size)
        self.expect("then nothing is passed over", self.run(foreign, "check").returncode == 0)

    def passes(self, folder, *told):
        for mode in ("absolute", "tail", "any"):
            ran = self.run(folder, "check", "--mode", mode)
            wanted = 6 if b"rest broken" not in ran.stdout or mode != "absolute" else 5
            self.expect(f"{folder}: check in {mode}: {ran.returncode}", ran.returncode == wanted)
            self.expect(f"{folder}: {told}: {ran.stdout}", all(each.encode() in ran.stdout for each in told))
        for words in ("get 1 none", "list", "stat", "dump", "groups", "consistency", "entries 7"):
            ran = self.run(folder, *words.split())
            self.expect(f"{folder}: {words} tells it: {ran.stderr}", b"plan passed" in ran.stderr)
        before = state_of(folder)
        for words in ("put 1 a b", "purge", "repair"):
            ran = self.run(folder, *words.split())
            self.expect(f"{folder}: {words} is refused", ran.returncode == 7 and b"is missing after them" in ran.stderr)
        self.expect(f"{folder}: nothing is done", state_of(folder) == before)

    def left_out(self):
        """Files of the log in a folder that isn't read are a loss, which check, looks, forks and changes tell."""
        folder = self.make("left-out")
        second = os.path.join(folder, "second")
        os.mkdir(second)
        for name in (min(logs_in(folder)), max(logs_in(folder))):
            size = os.path.getsize(os.path.join(folder, name))
            os.rename(os.path.join(folder, name), os.path.join(second, name))
            self.leaves_out(folder, f"plan left-out path second files 1 at 0 bytes {size} ")
            self.expect(f"{name}: with it all is there", self.run(folder, "check", "--spill", "second").returncode == 0)
            os.rename(os.path.join(second, name), os.path.join(folder, name))
        with open(os.path.join(second, min(logs_in(folder))), "wb") as file:
            file.write(b"a copy")
        self.expect("a copy is none of the log's", self.run(folder, "check").returncode == 0)
        other = os.path.join(folder, "other")
        self.run(other, "load", 60, 40, "--target", "200B")
        for name in logs_in(other) & logs_in(folder):
            os.unlink(os.path.join(other, name))
        ran = self.run(folder, "put", 1, "a", "b")
        self.expect(f"another log below hinders nothing: {ran.stderr}", ran.returncode == 0 and not ran.stderr)

    def leaves_out(self, folder, told):
        before = state_of(folder)
        ran = self.run(folder, "check")
        self.expect(f"check tells it: {ran.stdout}", ran.returncode == 6 and told.encode() in ran.stdout)
        copy = os.path.join(self.work, f"left-{len(os.listdir(self.work))}")
        for words in ("get 1 5", "list", "stat", "dump", "groups", "consistency", "entries 7", f"fork {copy}"):
            ran = self.run(folder, *words.split())
            self.expect(f"{words} tells it: {ran.stderr}", b"mend --spill second" in ran.stderr)
        for words in ("put 1 a b", "purge", "repair"):
            ran = self.run(folder, *words.split())
            told = ran.returncode == 7 and b"mend --spill second" in ran.stderr
            self.expect(f"{words} is refused: {ran.stderr}", told)
        self.expect(f"{folder}: nothing is done", state_of(folder) == before)

    def gone_queue(self):
        """Where files of the Append queue were dropped, and none of the Rewrite queue stands, it is gone."""
        folder = self.make("gone-queue")
        self.run(folder, "rewrite", "append")
        for name in logs_in(folder):
            if name.endswith(".rewrite"):
                os.unlink(os.path.join(folder, name))
        before = state_of(folder)
        ran = self.run(folder, "check")
        self.expect(f"check tells it: {ran.stdout}", ran.returncode == 6 and b"plan gone path rewrite files 0" in ran.stdout)
        for words in ("get 1 5", "list", "stat", "dump", "consistency"):
            ran = self.run(folder, *words.split())
            self.expect(f"{words} tells it: {ran.stderr}", b"queue rewrite has no file" in ran.stderr)
        for words in ("put 1 a b", "purge", "repair"):
            ran = self.run(folder, *words.split())
            self.expect(f"{words} is refused: {ran.stderr}", ran.returncode == 7 and b"queue rewrite" in ran.stderr)
        self.expect("nothing is done", state_of(folder) == before)
        ran = self.run(folder, "put", 1, "a", "b", "--cut")
        self.expect(f"a change that goes on: {ran.stderr}", ran.returncode == 0 and b"queue rewrite" in ran.stderr)
        ran = self.run(folder, "check")
        self.expect(f"then it is there, and was missing: {ran.stdout}", ran.returncode == 6 and b"plan missing path rewrite files 0" in ran.stdout)
        ran = self.run(folder, "repair", "--cut")
        self.expect(f"the loss is accepted: {ran.stderr}", ran.returncode == 0 and self.run(folder, "check").returncode == 0)

    def failed_changes(self):
        """A change that fails before its opening keeps no file of what still stands, and tells what it moved."""
        folder = self.make("half")
        os.unlink(os.path.join(folder, f"{3:016}.raftlog"))
        last = os.path.join(folder, max(logs_in(folder)))
        add(last, b"torn")
        before = state_of(folder)
        ran = self.run(folder, "repair", "--cut", env=self.calling(FAIL=f"open:2:{errno.EIO}"))
        self.expect(f"what can't be kept stays: {ran.stderr}", ran.returncode == 1 and state_of(folder) == before)
        # The first renaming gives what is kept its name.
        ran = self.run(folder, "repair", "--cut", env=self.calling(FAIL=f"rename:3:{errno.EIO}"))
        aside = f"{1:016}.raftlog.passed"
        self.expect(f"what was moved is told: {ran.stderr}", ran.returncode == 1 and aside.encode() in ran.stderr)
        self.expect("it stands there", os.path.exists(os.path.join(folder, aside)))
        self.expect("no cut is kept", not [name for name in os.listdir(folder) if ".cut-" in name])
        folder = os.path.join(self.work, "half-ahead")
        self.run(folder, "load", 6, 40)
        add(os.path.join(folder, f"{1:016}.raftlog"), b"torn")
        settings = os.path.join(self.work, "ahead.toml")
        with open(settings, "w", encoding="ascii") as file:
            file.write('target-file-size = "4KB"\npurge-threshold = "8KB"\nprefill-for-recycle = true\n')
        ran = self.run(folder, "put", 1, "a", "b", "--settings", settings, env=self.calling(FAIL=f"open:3:{errno.EIO}"))
        kept = [name for name in os.listdir(folder) if ".cut-" in name]
        self.expect(f"no cut is kept: {ran.returncode} {ran.stderr} {kept}", ran.returncode == 1 and not kept)
        self.expect("none is made", bytes_of(os.path.join(folder, f"{1:016}.raftlog")).endswith(b"torn"))

    def broken_off(self):
        """A change that is killed at one of its calls, or is refused one, leaves all evidence, and tells where it stands."""
        base = self.make("whole-evidence")
        os.unlink(os.path.join(base, f"{3:016}.raftlog"))
        last = os.path.join(base, max(logs_in(base)))
        add(last, b"a torn tail")
        evidence = [b"a torn tail"] + [bytes_of(os.path.join(base, f"{number:016}.raftlog")) for number in (1, 2)]
        for kind in ("KILL", "open", "write", "fsync", "fdatasync", "rename", "ftruncate"):
            for words in ("repair --cut", "put 1 a b --cut"):
                for call in range(1, 100):
                    folder = os.path.join(self.work, "evidence")
                    shutil.copytree(base, folder)
                    env = {"KILL": str(call)} if kind == "KILL" else {"FAIL": f"{kind}:{call}:{errno.EIO}"}
                    ran = self.run(folder, *words.split(), env=self.calling(**env))
                    self.has_evidence(f"{words}, {kind} {call}: {ran.stderr}", folder, evidence)
                    kept = [name.encode() for name in os.listdir(folder) if ".cut-" in name or ".passed" in name]
                    if kind != "KILL":
                        told = all(name in ran.stderr + ran.stdout for name in kept)
                        self.expect(f"{words}, {kind} {call} tells {kept}: {ran.stderr}", told)
                    shutil.rmtree(folder)
                    if ran.returncode == 0:
                        break

    def has_evidence(self, case, folder, evidence):
        stands = [bytes_of(os.path.join(folder, name)) for name in os.listdir(folder)]
        lost = [data[:20] for data in evidence if not any(data in each for each in stands)]
        self.expect(f"{case}: {lost} is lost", not lost)

    def foreseen(self):
        """Links and pipes under a log's own names are refused by an opening, and told by check."""
        folder = os.path.join(self.work, "links")
        self.run(folder, "load", 6, 40)
        first, second = (os.path.join(folder, f"{number:016}.raftlog") for number in (1, 2))
        self.foresees(folder, "a link", lambda: os.symlink(first, second), second)
        self.foresees(folder, "a pipe", lambda: os.mkfifo(second), second)
        self.foresees(folder, "a second name", lambda: os.link(first, second), second)
        self.expect("without them it opens", self.run(folder, "check").returncode == 0)

    def foresees(self, folder, what, make, name):
        make()
        ran = self.run(folder, "put", 1, "a", "b")
        self.expect(f"an opening refuses {what}: {ran.returncode} {ran.stderr}", ran.returncode == 1)
        ran = self.run(folder, "check")
        self.expect(f"check foresees {what}: {ran.stdout}", ran.returncode == 5 and b"refused " in ran.stdout)
        os.unlink(name)
