"""What `salvage` and `import` say of a log that is not whole, and of entries that they would replace."""
import json
import os
import shutil
import subprocess

from folders import logs_in, numbers_in, state_of

NOBODY = 65534
LIMIT = 700    # KB that a file may have, where an import fails in the middle


def name_of(number, ending="raftlog"):
    return f"{number:016}.{ending}"


class Sources:
    """Cases of `look_tests.py`."""

    def partial_sources(self):
        """Each loss that only the names or the note of a log show: both print the plan, and none ends with 0."""
        rows = [
            ("whole", lambda it: None, set(), 60),
            ("last", lambda it: os.unlink(os.path.join(it, name_of(self.numbers(it)[-1]))), {"missing"}, 59),
            ("first", lambda it: os.unlink(os.path.join(it, name_of(1))), {"missing"}, 59),
            ("middle", lambda it: os.unlink(os.path.join(it, name_of(2))), {"missing", "passed"}, 59),
            ("append", self.drop_append, {"missing", "gone"}, 60),
        ]
        for name, lose, kinds, most in rows:
            folder, settings = self.numbered(f"part-{name}")
            if name == "append":
                self.run(folder, "rewrite", "append", "--settings", settings)
                self.run(folder, "load", 90, 40, "--settings", settings)
            lose(folder)
            before = state_of(folder)
            target = self.place(f"part-{name}-salvaged")
            ran = self.run(folder, "salvage", target)
            self.expect(f"{name}: salvage prints the plan: {ran.stderr}", self.kinds_in(ran.stderr) == kinds)
            self.expect(f"{name}: salvage: {ran.returncode}", ran.returncode == (4 if kinds else 0))
            keys = len(self.run(target, "scan", 1).stdout.splitlines())
            self.expect(f"{name}: salvage: {keys} keys", keys == 60 if name == "whole" else 0 < keys <= most)
            self.expect(f"{name}: salvage prints objects", self.are_objects(self.run(folder, "salvage", target + "2", "--json")))
            self.is_imported(name, folder, kinds, target)
            self.expect(f"{name}: the log is as before", state_of(folder) == before)

    def is_imported(self, name, folder, kinds, salvaged):
        target = self.place(f"part-{name}-imported")
        ran = self.run(target, "import", "--from-folder", folder)
        self.expect(f"{name}: import prints the plan: {ran.stderr}", self.kinds_in(ran.stderr) == kinds)
        self.expect(f"{name}: import: {ran.returncode}", ran.returncode == (7 if kinds else 0))
        if kinds:
            self.expect(f"{name}: it makes nothing", not os.path.exists(target) and b"--cut" in ran.stderr)
            ran = self.run(target, "import", "--from-folder", folder, "--cut")
            self.expect(f"{name}: import --cut: {ran.returncode} {ran.stderr}", ran.returncode == 4)
        same = self.run(target, "sum").stdout == self.run(salvaged, "sum").stdout
        self.expect(f"{name}: both write the same", same)

    def place(self, name):
        return os.path.join(self.work, name)

    def numbers(self, folder):
        return sorted(int(name[:16]) for name in logs_in(folder) if name.endswith(".raftlog"))

    def drop_append(self, folder):
        for number in self.numbers(folder):
            os.unlink(os.path.join(folder, name_of(number)))

    def kinds_in(self, told):
        return {line.split()[1] for line in told.decode().splitlines() if line.startswith("plan ")}

    def are_objects(self, ran):
        try:
            return all(isinstance(json.loads(line), dict) for line in (ran.stdout + ran.stderr).splitlines())
        except ValueError:
            return False

    def left_out_sources(self):
        """A second folder that no option names: the mend is the option of the command, and brings all back."""
        folder = self.with_folder(self.place("source-left-out"))
        wanted = self.run(folder, "sum", "--spill", "second").stdout
        for command, option in ((["salvage"], "--spill"), (["import"], "--from-spill")):
            target = self.place(f"source-left-out-{command[0]}")
            words = [folder, "salvage", target] if command == ["salvage"] else [target, "import", "--from-folder", folder]
            ran = self.run(*words)
            self.expect(f"{words}: {ran.returncode}", ran.returncode == (4 if command == ["salvage"] else 7))
            self.expect(f"{words}: its option: {ran.stderr}", f" mend {option} second\n".encode() in ran.stderr)
            shutil.rmtree(target, ignore_errors=True)
            ran = self.run(*words, option, "second")
            told = self.run(target, "sum").stdout
            self.expect(f"{words} {option}: {ran.returncode} {ran.stderr}", ran.returncode == 0 and told == wanted)
        folder = self.with_empty_first(self.place("source-all-left-out"))
        for words in ([folder, "salvage", self.place("none")], [self.place("none"), "import", "--from-folder", folder]):
            ran = self.run(*words)
            told = ran.returncode == 1 and b"plan left-out" in ran.stderr and b"no log file" in ran.stderr
            self.expect(f"{words}: {ran.stderr}", told)

    def with_empty_first(self, folder):
        folder, _ = self.numbered(folder)
        second = os.path.join(folder, "second")
        os.mkdir(second)
        for name in logs_in(folder):
            os.rename(os.path.join(folder, name), os.path.join(second, name))
        return folder

    def left_over_sources(self):
        """A file that a purge had dropped brings nothing back, unless that is asked; nor once a repair moved it aside."""
        folder, settings = self.numbered("left-over-source")
        first = os.path.join(folder, name_of(1))
        kept = self.place("kept-first")
        shutil.copy(first, kept)
        self.run(folder, "del", 1, 5, "--settings", settings)
        self.run(folder, "rewrite", "append", "--settings", settings)
        self.expect("a purge drops the first file", not os.path.exists(first))
        shutil.copy(kept, first)
        wanted = self.run(folder, "sum").stdout
        for turn, command in enumerate((None, "repair")):
            if command:
                ran = self.run(folder, *command.split())
                aside = os.path.exists(first + ".left-over") and not os.path.exists(first)
                self.expect(f"{command} moves it aside: {ran}", ran.returncode == 0 and aside)
            for more, status, there in (([], 0, False), (["--stale"], None, True)):
                target = self.place(f"left-over-{turn}{len(more)}")
                ran = self.run(folder, "salvage", target, *more)
                told = b"plan left-over" in ran.stderr or command
                self.expect(f"salvage {more} after {command}: {ran}", ran.returncode in (0, 4) and told)
                self.expect(f"salvage {more}: {ran.returncode}", status is None or ran.returncode == status)
                found = self.run(target, "get", 1, 5).returncode == 0
                self.expect(f"salvage {more} after {command}: the deleted key", found == there)
                self.expect("without it the log is the same", there or self.run(target, "sum").stdout == wanted)
            target = self.place(f"left-over-imported{turn}")
            ran = self.run(target, "import", "--from-folder", folder)
            same = self.run(target, "sum").stdout == wanted
            self.expect(f"import after {command}: {ran}", ran.returncode == 0 and same)

    def replaced_entries(self):
        """An import into a log that has entries says which it replaces, and does so only if that is asked."""
        log, other = self.place("replaced"), self.place("replacing")
        rows = [
            (["append", 1, "x", "y", "--at", 50], b"replaced 1 first 1 last 4\n"),
            (["append", 1, "y", "--at", 3], b"replaced 1 first 3 last 4\n"),
            (["append", 1, "y", "z", "--at", 1], b"replaced 1 first 1 last 4\n"),
            (["append", 1, "y", "--at", 5], b""),
            (["append", 2, "y"], b""),
            (["put", 1, "k", "v"], b""),
        ]
        for words, told in rows:
            for folder in (log, other):
                shutil.rmtree(folder, ignore_errors=True)
            self.run(log, "append", 1, *"abcd")
            self.run(other, *words)
            dump = self.run(other, "dump", "--json").stdout
            for more, given in ((["import", "--from-folder", other], None), (["import"], dump)):
                self.is_judged(log, more, given, told)
            ran = self.run(log, "import", "--replace", input=dump)
            wanted = self.run(other, "entries", 1).stdout
            self.expect(f"{words}: --replace: {ran}", ran.returncode == 0 and ran.stdout.startswith(told))
            self.expect(f"{words}: what is there then", self.run(log, "entries", 1).stdout.endswith(wanted))

    def is_judged(self, log, words, given, told):
        more = {} if given is None else {"input": given}
        before = {path: state[4] for path, state in state_of(log).items() if path.endswith(".raftlog")}
        for dry in ([], ["--dry-run"]):
            if not told and not dry:
                continue
            ran = self.run(log, *words, *dry, **more)
            ended = ran.returncode == (7 if told else 0)
            said = ran.stdout == told if told else b"replaced" not in ran.stdout
            self.expect(f"{words} {dry}: {ran}", ended and said and (b"--replace" in ran.stderr) == bool(told))
            after = {path: state[4] for path, state in state_of(log).items() if path.endswith(".raftlog")}
            self.expect(f"{words} {dry} writes nothing", after == before)
        if told:
            ran = self.run(log, *words, "--replace", "--dry-run", **more)
            self.expect(f"{words} --replace --dry-run: {ran}", ran.returncode == 0 and ran.stdout.startswith(told))

    def commanded_entries(self):
        """Entries that the lines themselves compact or clean away are removed, not replaced."""
        rows = [
            ('{"group":1,"kind":"compact","index":5}', "removed 1 first 1 last 4\n"),
            ('{"group":1,"kind":"clean"}', "removed 1 first 1 last 4\n"),
            ('{"group":1,"kind":"compact","index":3}', "replaced 1 first 3 last 4\nremoved 1 first 1 last 2\n"),
        ]
        for line, told in rows:
            folder = self.place("commanded")
            shutil.rmtree(folder, ignore_errors=True)
            self.run(folder, "append", 1, *"abcd")
            lines = line + '\n{"group":1,"kind":"entry","index":9,"value":"z"}\n'
            ran = self.run(folder, "import", input=lines.encode())
            self.expect(f"{line}: {ran}", ran.returncode == (7 if told else 0) and ran.stdout.startswith(told.encode()))

    def changed_contents(self):
        """N2: an import says what of a log it replaces or removes, and does it only if that is asked."""
        def item(kind, **more):
            return {"group": 1, "kind": kind, **more}

        put, delete, clean = (lambda key, value: item("put", key=key, value=value)), (lambda key: item("delete", key=key)), item("clean")
        own = {"a": "1", "b": "2", "c": "3"}
        rows = [
            ([item("compact", index=3)], ["removed 1 first 1 last 2"], own),
            ([item("compact", index=9)], ["removed 1 first 1 last 4"], own),
            ([item("compact", index=1)], [], own),
            ([item("compact", index=2), item("compact", index=4)], ["removed 1 first 1 last 3"], own),
            ([clean], ["removed 1 first 1 last 4", "removed 1 keys 3"], {}),
            ([clean, put("a", "1"), put("b", "9")], ["removed 1 first 1 last 4", "replaced 1 keys 1", "removed 1 keys 1"],
             {"a": "1", "b": "9"}),
            ([clean, put("a", "1"), delete("a")], ["removed 1 first 1 last 4", "removed 1 keys 3"], {}),
            ([delete("a"), delete("a"), delete("none")], ["removed 1 keys 1"], {"b": "2", "c": "3"}),
            ([delete("a"), put("a", "1")], [], own),
            ([put("a", "9"), put("b", "9")], ["replaced 1 keys 2"], {"a": "9", "b": "9", "c": "3"}),
            ([put("a", "9"), put("a", "1")], [], own),
            ([put("d", "4"), {**put("a", "9"), "group": 2}], [], {**own, "d": "4"}),
            ([item("entry", index=4, value="z"), delete("c")], ["replaced 1 first 4 last 4", "removed 1 keys 1"], {"a": "1", "b": "2"}),
        ]
        for items, told, keys in rows:
            folder = self.place("changed-contents")
            shutil.rmtree(folder, ignore_errors=True)
            self.run(folder, "append", 1, *"wxyz")
            for key, value in own.items():
                self.run(folder, "put", 1, key, value)
            lines = "".join(json.dumps(each) + "\n" for each in items).encode()
            wanted = "".join(line + "\n" for line in told).encode()
            before = self.run(folder, "sum").stdout
            ran = self.run(folder, "import", input=lines)
            self.expect(f"{items}: {ran}", ran.returncode == (7 if told else 0) and ran.stdout.startswith(wanted))
            if told:
                self.expect(f"{items}: nothing is written", self.run(folder, "sum").stdout == before)
                ran = self.run(folder, "import", "--replace", input=lines)
                self.expect(f"{items}: --replace: {ran}", ran.returncode == 0 and ran.stdout.startswith(wanted))
            found = dict(line.split("\t") for line in self.run(folder, "scan", 1).stdout.decode().splitlines())
            self.expect(f"{items}: {found}", found == keys)
        folder, other = self.place("changed-keys"), self.place("changing-keys")
        for each, value in ((folder, "1"), (other, "2")):
            self.run(each, "put", 1, "a", value)
            self.run(each, "put", 1, "b", "3")
        ran = self.run(folder, "import", "--from-folder", other)
        self.expect(f"of a folder: {ran}", ran.returncode == 7 and ran.stdout == b"replaced 1 keys 1\n")
        ran = self.run(folder, "import", "--from-folder", other, "--replace")
        self.expect(f"of a folder: --replace: {ran}", ran.returncode == 0 and ran.stdout.startswith(b"replaced 1 keys 1\n"))

    def targets_inside(self):
        """A salvage, a fork and an import write no log into the folder that they read, whatever its path is."""
        folder = self.place("outer")
        self.run(folder, "load", 6, 40)
        os.mkdir(os.path.join(folder, "empty"))
        os.symlink(folder, self.place("outer-link"))
        before = state_of(folder)
        for below in ("saved", "empty", "empty/saved", "none/saved"):
            for outer in (folder, self.place("outer-link"), os.path.join(folder, "empty", "..")):
                target = os.path.join(outer, below)
                for words in ([folder, "salvage", target], [folder, "fork", target], [target, "import", "--from-folder", folder]):
                    ran = self.run(*words)
                    self.expect(f"{words}: {ran}", ran.returncode == 1 and state_of(folder) == before)
        ran = self.run(folder, "salvage", folder + "-beside")
        self.expect(f"one beside it: {ran}", ran.returncode == 0)

    def targets_beside_files(self):
        """D7: a salvage of named files writes nothing into the log that has one of them."""
        folder, other = self.place("named-outer"), self.place("named-other")
        for each in (folder, other):
            self.run(each, "load", 6, 40)
        before = state_of(folder)
        file = os.path.join(folder, name_of(1))
        for target in ("saved", "none/saved", "../named-outer/saved"):
            ran = self.run(other, "salvage", os.path.join(folder, target), file)
            told = ran.returncode == 1 and b"the folder of a log" in ran.stderr and state_of(folder) == before
            self.expect(f"{target}: {ran}", told)
        alone = self.place("named-alone")
        os.mkdir(alone)
        shutil.copy(file, alone)
        ran = self.run(other, "salvage", os.path.join(alone, "saved"), os.path.join(alone, name_of(1)))
        same = self.run(os.path.join(alone, "saved"), "sum").stdout == self.run(folder, "sum").stdout
        self.expect(f"beside a file that is in no log's folder: {ran}", ran.returncode == 0 and same)

    def unreadable_files(self):
        """D6: a file that may not be read ends a salvage, which names it; the others come back by their names."""
        if os.geteuid() != 0:
            print("not tried: a file that may not be read (only root can make it)")
            return
        os.chmod(self.work, 0o755)
        folder, _ = self.numbered("unreadable")
        files, place = sorted(logs_in(folder)), self.place("unreadable-saved")
        os.mkdir(place)
        os.chown(place, NOBODY, NOBODY)
        for path in [folder] + [os.path.join(folder, name) for name in os.listdir(folder)]:
            os.chown(path, NOBODY, NOBODY)
        shut = os.path.join(folder, files[0])
        os.chown(shut, 0, 0)
        os.chmod(shut, 0o600)
        user = {"user": NOBODY, "group": NOBODY, "extra_groups": []}
        ran = self.run(folder, "salvage", os.path.join(place, "all"), **user)
        told = files[0].encode() in ran.stderr and b"ermission" in ran.stderr
        self.expect(f"salvage: {ran}", ran.returncode == 1 and told and not os.path.exists(os.path.join(place, "all")))
        ran = self.run(folder, "salvage", os.path.join(place, "others"), *files[1:], **user)
        keys = len(self.run(os.path.join(place, "others"), "scan", 1).stdout.splitlines())
        self.expect(f"by their names: {keys} {ran}", ran.returncode == 0 and 0 < keys < 60)

    def failed_imports(self):
        """An import that fails in the middle says how many items the log has, and begins again with --replace."""
        lines = self.place("many.json")
        with open(lines, "w", encoding="ascii") as file:
            for number in range(3000):
                item = {"queue": "append", "number": 1, "offset": number, "group": 1, "kind": "entry", "index": number + 1}
                file.write(json.dumps({**item, "value": "v" * 500}) + "\n")
        folder = self.place("half-imported")
        line = f"trap '' XFSZ; ulimit -f {LIMIT}; exec {self.program} {folder} import {lines}"
        ran = subprocess.run(["bash", "-c", line], capture_output=True, timeout=120)
        count = [int(word) for word in ran.stderr.split() if word.isdigit()]
        self.expect(f"it fails and says how many: {ran}", ran.returncode == 1 and b"the import failed after" in ran.stderr)
        found = numbers_in(self.run(folder, "stat").stdout)["entries"]
        self.expect(f"so many are there: {count}, {found}", found in count and 0 < found < 3000)
        ran = self.run(folder, "import", lines)
        self.expect(f"again without the word: {ran}", ran.returncode == 7)
        ran = self.run(folder, "import", lines, "--replace")
        self.expect(f"again: {ran}", ran.returncode == 0 and b"imported 3000" in ran.stdout)
        self.expect("then all are there", numbers_in(self.run(folder, "stat").stdout)["entries"] == 3000)
