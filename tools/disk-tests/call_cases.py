"""What a command leaves that is killed at one of its calls, and what it tells where calls are refused."""
import errno
import os
import shutil
import signal
import subprocess

from folders import logs_in, state_of

HERE = os.path.dirname(os.path.abspath(__file__))
MARK = "FORKING"


class Calls:
    """Cases of `look_tests.py`."""

    def calling(self, **more):
        """An environment in which `record_calls.c` takes part in each call of the system."""
        recorder = os.path.join(self.work, "record_calls.so")
        if not os.path.exists(recorder):
            source = os.path.join(HERE, "record_calls.c")
            subprocess.run(["cc", "-shared", "-fPIC", "-O1", "-o", recorder, source, "-ldl"], check=True)
        return {**os.environ, "LD_PRELOAD": recorder, **more}

    def killed_forks(self):
        """A fork that is killed at any of its calls leaves no log file, or a mark, or all of the log."""
        source = self.make("forked")
        self.run(source, "rewrite", "append", "--target", "20KB")
        self.run(source, "load", 600, 40, "--sync-each", 100, "--target", "20KB")
        count = len(logs_in(source))
        self.expect("the source has both queues", count >= 4)
        told = [self.run(source, *words.split()).stdout for words in ("list", "entries 7")]
        before = state_of(source)
        marked = 0
        for call in range(1, 1000):
            target = os.path.join(self.work, "fork-killed")
            ran = self.run(source, "fork", target, env=self.calling(KILL=str(call)))
            if ran.returncode == 0:
                break
            self.expect(f"call {call}: killed", ran.returncode == -signal.SIGKILL)
            if os.path.exists(os.path.join(target, MARK)):
                marked += 1
                self.is_refused(call, target)
            elif os.path.exists(target) and logs_in(target):
                same = [self.run(target, *words.split()).stdout for words in ("list", "entries 7")] == told
                self.expect(f"call {call}: without a mark all is there", same and logs_in(target) == logs_in(source))
            shutil.rmtree(target, ignore_errors=True)
        # Of each file its making, its folder's sync, its bytes and its own sync.
        self.expect(f"a fork is killed at each call: {call}, {marked}", call > 4 * count < marked + count)
        self.expect("killed forks leave their source", state_of(source) == before)

    def is_refused(self, call, target):
        """Looks, changes and forks refuse the target, and change nothing of it."""
        before = state_of(target)
        for words in ("check", "list", "put 1 a b", "repair"):
            ran = self.run(target, *words.split())
            holds = ran.returncode == 1 and b"has not ended" in ran.stderr
            self.expect(f"call {call}: {words} on a fork that has not ended: {ran.stderr}", holds)
        ran = self.run(os.path.join(self.work, "forked"), "fork", target)
        self.expect(f"call {call}: a fork over it: {ran.stderr}", ran.returncode == 1)
        left = {path: state for path, state in state_of(target).items() if not path.endswith("/LOCK")}
        same = all(before.get(path) == state for path, state in left.items() if path != target)
        self.expect(f"call {call}: it is as it was", same)

    def killed_rescues(self):
        """A salvage that is killed at any of its calls leaves no target, or all. An import that is killed begins again."""
        source, _ = self.numbered("killed-source")
        wanted, before = self.run(source, "sum").stdout, state_of(source)
        target = os.path.join(self.work, "killed-target")
        for words in ([source, "salvage", target], [target, "import", "--from-folder", source]):
            for call in range(1, 1000):
                ran = self.run(*words, "--target", "1KB", env=self.calling(KILL=str(call)))
                if ran.returncode == 0:
                    break
                self.expect(f"{words[1]}: call {call}: killed", ran.returncode == -signal.SIGKILL)
                if words[1] == "import":
                    ran = self.run(*words, "--target", "1KB", "--replace")
                    self.expect(f"import after a kill at call {call}: {ran}", ran.returncode == 0)
                if words[1] == "import" or os.path.exists(target):
                    self.expect(f"{words[1]}: call {call}: all is there", self.run(target, "sum").stdout == wanted)
                for path in (target, target + ".part"):
                    shutil.rmtree(path, ignore_errors=True)
            self.expect(f"{words[1]} is killed at each call: {call}", call > 20)
            shutil.rmtree(target)
        self.expect("killed rescues leave their source", state_of(source) == before)

    def refused_calls(self):
        """A call that the system refuses is told with its text, the call and the file."""
        folder = os.path.join(self.work, "refused-calls")
        self.run(folder, "load", 6, 40)
        # A first file of the Rewrite queue is made: a change of a folder that takes no new file.
        os.unlink(os.path.join(folder, f"{1:016}.rewrite"))
        path = os.path.join(folder, f"{1:016}.rewrite").encode()
        for kind, number, code, texts in [
            ("opens", 1, errno.EACCES, [b"lock cannot be opened", b"ermission", folder.encode()]),
            ("open", 2, errno.EACCES, [path, b": it cannot be made: Permission denied"]),
            ("pwrites", 1, errno.EDQUOT, [path, b"it cannot be written: ", b"uota", b"free a block"]),
            ("pwrite", 1, errno.EIO, [path, b": it cannot be written: Input/output error"]),
            ("fdatasync", 1, errno.EROFS, [path, b": it cannot be synced: Read-only file system"]),
        ]:
            env = self.calling(FAIL=f"{kind}:{number}:{code}")
            before = logs_in(folder)
            ran = self.run(folder, "put", 1, "a", "b", "--cut", env=env)
            told = all(text in ran.stderr for text in texts)
            self.expect(f"{kind} {number}: {ran.stderr}", ran.returncode == 1 and told)
            for name in logs_in(folder) - before:
                os.unlink(os.path.join(folder, name))
        target = os.path.join(self.work, "refused-fork")
        # The first one is the note of the numbers.
        ran = self.run(folder, "fork", target, env=self.calling(FAIL=f"pwrite:2:{errno.EIO}"))
        path = os.path.join(target, f"{1:016}.raftlog").encode()
        told = path + b": it cannot be written: Input/output error" in ran.stderr
        self.expect(f"a fork's refused call: {ran.stderr}", ran.returncode == 1 and told)

    def long_paths(self):
        """What is told of a long path is told to its end."""
        folder = os.path.join(self.work, *(["long" * 10] * 8))
        os.makedirs(folder)
        self.run(folder, "load", 6, 40)
        second = os.path.join(folder, f"{2:016}.raftlog")
        os.symlink(os.path.join(folder, f"{1:016}.raftlog"), second)
        wanted = second.encode() + b": neither a folder nor a file of one name"
        ran = self.run(folder, "put", 1, "a", "b")
        self.expect(f"a long path: {ran.stderr}", ran.returncode == 1 and wanted in ran.stderr)
        missing = os.path.join(folder, "missing").encode()
        ran = self.run(missing, "list")
        self.expect(f"a long path: {ran.stderr}", ran.returncode == 1 and missing + b": No such file" in ran.stderr)
