"""The plan of an opening: the same lines wherever it is printed, and commands that mend what they name."""
import json
import os
import re
import shlex
import shutil
import subprocess

from folders import add, bytes_of, flip, logs_in, reserved_in, state_of

LINE = re.compile(r"plan (\S+) path (.*) files (\d+) at (\d+) bytes (\d+) check (\d) change (\d) cause (.*) mend (.*)")
ROOT = os.path.dirname(os.path.dirname(os.path.dirname(os.path.abspath(__file__))))
FIELDS = ["plan", "path", "files", "at", "bytes", "check", "change", "cause", "mend"]
SMALL = 'target-file-size = "1KB"\npurge-threshold = "1KB"\nenable-log-recycle = false\n'


def name_of(number, ending="raftlog"):
    return f"{number:016}.{ending}"


def lines_of(text):
    return [line for line in text.decode().splitlines() if line.startswith("plan ")]


class Plans:
    """Cases of `look_tests.py`."""

    def numbered(self, name):
        """A log of files of 1 KB, and its settings, which keep no reserved file."""
        folder = os.path.join(self.work, name)
        settings = os.path.join(self.work, "small.toml")
        with open(settings, "w", encoding="ascii") as file:
            file.write(SMALL)
        self.run(folder, "load", 60, 40, "--settings", settings)
        return folder, settings

    def without_note(self, folder):
        """What an opening knows by the names alone."""
        os.unlink(os.path.join(folder, "SPANS"))

    def table(self):
        """The table of docs/RAFTCTL.md is that of the source."""
        with open(os.path.join(ROOT, "crates/raft_opening_plan/src/kind.rt"), encoding="utf-8") as file:
            rows = re.findall(r'Row\("([a-z-]+)", Status::(\w+), Change::(\w+)\)', file.read())
        checks = {"Done": "0", "WouldCut": "4", "WouldFail": "5", "WouldPass": "6"}
        changes = {"GoesOn": "0", "Fails": "1", "Refused": "7"}
        wanted = {(name, checks[check], changes[change]) for name, check, change in rows}
        with open(os.path.join(ROOT, "docs/RAFTCTL.md"), encoding="utf-8") as file:
            told = set(re.findall(r"^\| `([a-z-]+)` \| .* \| (\d) \| (\d) \| [^|]*\|$", file.read(), re.M))
        self.expect(f"the table of the document: {wanted ^ told}", wanted == told and len(told) == 13)

    def plans(self):
        """Each kind of item: its statuses, the same lines from each command, and what its command mends."""
        os.mkdir(os.path.join(self.work, "bin"))
        os.symlink(self.program, os.path.join(self.work, "bin", "raftctl"))
        for kind, make, check, change, mends in [
            ("tail", self.with_tail, 4, 0, True),
            ("records", self.with_records, 4, 7, "saved"),
            ("broken", self.with_broken, 5, 1, "saved"),
            ("doubled", self.with_doubled, 5, 1, True),
            ("refused", self.with_link, 5, 1, True),
            ("refused", self.with_second_name, 5, 1, True),
            ("passed", self.with_gap, 6, 7, True),
            ("stray", self.with_stray, 6, 7, True),
            ("left-out", self.with_folder, 6, 7, "option"),
            ("left-out", self.with_other_folder, 6, 7, "option"),
            ("gone", self.without_append, 6, 7, False),
            ("gone", self.without_append_and_note, 6, 7, False),
            ("gone", self.without_rewrite, 6, 7, False),
            ("reserved", self.with_reserved, 0, 0, False),
        ]:
            folder = make(os.path.join(self.work, f"plan-{make.__name__}"))
            words = ["--spill", "second"] if kind == "doubled" else []
            self.is_planned(folder, words, kind, check, change)
            self.is_mended(folder, words, kind, mends)

    def is_planned(self, folder, words, kind, check, change):
        case = f"{os.path.basename(folder)}"
        before = state_of(folder)
        ran = self.run(folder, "check", *words)
        lines = lines_of(ran.stdout)
        found = [LINE.fullmatch(line) for line in lines]
        self.expect(f"{case}: the lines have their form: {lines}", lines and all(found))
        kinds = [each[1] for each in found if each]
        self.expect(f"{case}: {kind} among {kinds}", kind in kinds)
        self.expect(f"{case}: check {ran.returncode}, not {check}", ran.returncode == check)
        for each in found:
            if each and each[1] == kind:
                self.expect(f"{case}: its statuses: {each[0]}", (int(each[6]), int(each[7])) == (check, change))
        told = self.run(folder, "check", "--json", *words).stdout
        objects = [each for each in map(json.loads, told.splitlines()) if "plan" in each]
        same = [[str(each[field]) for field in FIELDS] for each in objects] == [list(each.groups()) for each in found if each]
        self.expect(f"{case}: JSON has the same: {objects}", same)
        wanted = [line for line in lines if not line.startswith("plan reserved")]
        copy = f"{folder}-fork"
        for command in (f"fork {copy}", "consistency", "repair --dry-run"):
            ran = self.run(folder, *command.split(), *words)
            told = lines_of(ran.stderr)
            self.expect(f"{case}: {command} prints the plan: {told} {ran.stderr}", set(wanted) == set(told))
            if command != "repair --dry-run" and ran.returncode != 1:
                self.expect(f"{case}: {command}: {ran.returncode}", ran.returncode == check)
        if check == 6:
            self.expect(f"{case}: a dump ends with it", self.run(folder, "dump", *words).returncode == check)
        self.expect(f"{case}: nothing is changed", state_of(folder) == before)
        if change:
            ran = self.run(folder, "put", "1", "a", "b", *words)
            self.expect(f"{case}: a put: {ran.returncode} {ran.stderr}", ran.returncode == change)
            self.expect(f"{case}: it prints the plan: {ran.stderr}", set(wanted) <= set(lines_of(ran.stderr)))
            added = {os.path.basename(path) for path in state_of(folder).keys() ^ before.keys()}
            self.expect(f"{case}: it changes nothing but the note: {added}", added <= {"SPANS"})
            ran = self.run(folder, "put", "1", "a", "b", "--json", *words)
            objects = [json.loads(line) for line in ran.stderr.splitlines()]
            self.expect(f"{case}: --json alone: {objects}", kind in [each.get("plan") for each in objects])

    def is_mended(self, folder, words, kind, mends):
        """The command after `mend`, in a shell, and then a check."""
        found = [LINE.fullmatch(line) for line in lines_of(self.run(folder, "check", *words).stdout)]
        commands = [each[9] for each in found if each and each[1] == kind]
        for command in commands:
            if not mends:
                self.expect(f"{folder}: no command: {command}", command == "none")
            elif mends == "option":
                more = shlex.split(command)
                if b"plan doubled" in self.run(folder, "check", *more).stdout:
                    self.is_mended(folder, more, "doubled", True)
                ran = self.run(folder, "check", *more)
                self.expect(f"{folder}: check {command}: {ran.stdout}", ran.returncode == 0)
                ran = self.run(folder, "verify", 60, 40, *more)
                whole = ran.returncode == 0 and b"present 60 " in ran.stdout
                self.expect(f"{folder}: its keys are there, with their values: {ran}", whole)
            else:
                ran = self.typed(command)
                self.expect(f"{folder}: {command}: {ran.returncode} {ran.stderr}", ran.returncode in (0, 4))
        if mends and mends != "option":
            mended = f"{folder}.saved" if mends == "saved" else folder
            ran = self.run(mended, "check", *words)
            self.expect(f"{mended}: mended: {ran.stdout}", ran.returncode == 0)

    def plan_of(self, folder, *words):
        """The lines of a plan, each in its parts."""
        return [LINE.fullmatch(line) for line in lines_of(self.run(folder, "check", *words).stdout)]

    def typed(self, command, shell="bash", **more):
        """A command as a user types it."""
        path = os.path.join(self.work, "bin") + os.pathsep + os.environ["PATH"]
        return subprocess.run([shell, "-c", command], capture_output=True, env={**os.environ, "PATH": path}, timeout=60, **more)

    def with_tail(self, folder):
        self.run(folder, "load", 60, 40)
        add(os.path.join(folder, name_of(1)), b"torn")
        return folder

    def with_records(self, folder):
        self.run(folder, "load", 60, 40)
        path = os.path.join(folder, name_of(1))
        flip(path, os.path.getsize(path) // 6)
        return folder

    def with_broken(self, folder):
        folder, _ = self.numbered(folder)
        flip(os.path.join(folder, name_of(2)), 300)
        return folder

    def with_doubled(self, folder):
        folder, _ = self.numbered(folder)
        second = os.path.join(folder, "second")
        os.mkdir(second)
        last = max(name for name in logs_in(folder) if name.endswith("raftlog"))
        shutil.copy(os.path.join(folder, last), second)
        os.truncate(os.path.join(second, last), 80)
        return folder

    def with_link(self, folder):
        self.run(folder, "load", 60, 40)
        os.symlink(name_of(1), os.path.join(folder, name_of(2)))
        return folder

    def with_second_name(self, folder):
        self.run(folder, "load", 60, 40)
        os.link(os.path.join(folder, name_of(1)), os.path.join(folder, "other"))
        return folder

    def with_gap(self, folder):
        folder, _ = self.numbered(folder)
        os.unlink(os.path.join(folder, name_of(3)))
        return folder

    def with_stray(self, folder):
        """A5 of the review."""
        self.run(folder, "load", 60, 40)
        with open(os.path.join(folder, name_of(9)), "wb") as file:
            file.write(b"hello")
        return folder

    def with_folder(self, folder):
        folder, _ = self.numbered(folder)
        second = os.path.join(folder, "second")
        os.mkdir(second)
        for name in sorted(logs_in(folder))[:2]:
            os.rename(os.path.join(folder, name), os.path.join(second, name))
        return folder

    def with_other_folder(self, folder):
        """A4 of the review: a log's files, and after them one of the same number, with other bytes."""
        folder, _ = self.numbered(folder)
        second = os.path.join(folder, "second")
        os.mkdir(second)
        for name in logs_in(folder):
            os.rename(os.path.join(folder, name), os.path.join(second, name))
        self.without_note(folder)
        ran = self.run(folder, "put", 1, "a", "b", "--cut")
        self.expect(f"a put that goes on: {ran.stderr}", ran.returncode == 0 and b"--spill second" in ran.stderr)
        return folder

    def without_append(self, folder):
        """A3 of the review."""
        folder, settings = self.numbered(folder)
        self.run(folder, "rewrite", "append", "--settings", settings)
        self.run(folder, "load", 90, 40, "--settings", settings)
        for name in logs_in(folder):
            if name.endswith(".raftlog"):
                os.unlink(os.path.join(folder, name))
        return folder

    def without_append_and_note(self, folder):
        folder = self.without_append(folder)
        self.without_note(folder)
        return folder

    def without_rewrite(self, folder):
        folder, settings = self.numbered(folder)
        self.run(folder, "rewrite", "append", "--settings", settings)
        for name in logs_in(folder):
            if name.endswith(".rewrite"):
                os.unlink(os.path.join(folder, name))
        return folder

    def with_reserved(self, folder):
        self.run(folder, "load", 60, 40)
        with open(os.path.join(folder, name_of(1, "raftlog.reserved")), "wb") as file:
            file.write(b"\0" * 100)
        return folder

    def noted(self):
        """What `SPANS` makes known: the last file gone, all files, a stray with a header; and what a killed close leaves."""
        for case, gone, kinds in [
            ("last", lambda names: [max(name for name in names if name.endswith(".raftlog"))], {"missing"}),
            ("all", lambda names: names, {"missing"}),
            ("none", lambda names: [], set()),
        ]:
            folder, _ = self.numbered(f"noted-{case}")
            for name in gone(logs_in(folder)):
                os.unlink(os.path.join(folder, name))
            ran = self.run(folder, "check")
            found = {line.split()[1] for line in lines_of(ran.stdout)}
            self.expect(f"noted, {case} gone: {ran.stdout}", found == kinds and ran.returncode == (6 if kinds else 0))
            ran = self.run(folder, "put", 1, "a", "b")
            told = {line.split()[1] for line in lines_of(ran.stderr)}
            self.expect(f"noted, {case} gone: a put: {ran.stderr}", ran.returncode == (7 if kinds else 0) and told == kinds)
            ran = self.run(folder, "repair")
            self.expect(f"noted, {case} gone: a repair: {ran.stderr}", ran.returncode == (7 if kinds else 0))
            ran = self.run(folder, "put", 1, "a", "b", "--cut")
            told = {line.split()[1] for line in lines_of(ran.stderr)}
            self.expect(f"noted, {case} gone: a put with --cut: {ran.stderr}", ran.returncode == 0 and told == kinds)
            self.run(folder, "load", 300, 40, "--target", "1KB", "--cut")
            ran = self.run(folder, "check")
            found = {line.split()[1] for line in lines_of(ran.stdout)}
            self.expect(f"noted, {case} gone: new files hide nothing: {ran.stdout}", found == kinds)
            self.hides_nothing(f"noted, {case} gone", folder, kinds)
            ran = self.run(folder, "repair", "--cut")
            self.expect(f"noted, {case} gone: accepted: {ran.stderr}", ran.returncode == 0 and self.run(folder, "check").returncode == 0)
        folder, _ = self.numbered("noted-stray")
        last = max(int(name[:16]) for name in logs_in(folder) if name.endswith(".raftlog"))
        stray = os.path.join(folder, name_of(last + 5))
        shutil.copy(os.path.join(folder, name_of(1, "rewrite")), stray)
        ran = self.run(folder, "repair", "--cut")
        self.expect(f"a stray with a header: {ran.stderr}", ran.returncode == 0 and os.path.exists(stray + ".stray"))
        self.expect("then all is there", self.run(folder, "check").returncode == 0)

    def hides_nothing(self, case, folder, kinds):
        """Nor do files of another program, after which the note is old."""
        last = max(int(name[:16]) for name in logs_in(folder) if name.endswith(".raftlog"))
        others = [os.path.join(folder, name_of(last + more)) for more in (1, 2)]
        for path in others:
            shutil.copy(os.path.join(folder, name_of(1, "rewrite")), path)
        ran = self.run(folder, "check")
        found = {line.split()[1] for line in lines_of(ran.stdout)}
        self.expect(f"{case}: another program's files: {ran.stdout}", found == kinds and ran.returncode == (6 if kinds else 0))
        for path in others:
            os.unlink(path)

    def gap_without_note(self):
        """A refused change notes no gap as harmless."""
        folder = self.with_gap(os.path.join(self.work, "gap-without-note"))
        self.without_note(folder)
        for _ in range(2):
            before = state_of(folder)
            ran = self.run(folder, "put", 1, "a", "b")
            self.expect(f"a gap without a note: {ran.stderr}", ran.returncode == 7 and b"cannot be known" in ran.stderr)
            self.expect("it changes nothing", state_of(folder) == before)

    def killed_first(self):
        """A kill at any call of a log's first opening leaves a log without an alarm."""
        for call in range(1, 1000):
            folder = os.path.join(self.work, "first-killed")
            ran = self.run(folder, "put", 1, "a", "b", env=self.calling(KILL=str(call)))
            if os.path.isdir(folder):
                checked = self.run(folder, "check")
                self.expect(f"call {call} of the first opening: check: {checked.stdout}", checked.returncode in (0, 4))
                put = self.run(folder, "put", 1, "a", "b")
                self.expect(f"call {call} of the first opening: a put: {put.stderr}", put.returncode == 0)
                shutil.rmtree(folder)
            if ran.returncode == 0:
                break

    def killed_closes(self):
        """B2 of the review: a kill at any call of a rewriting refuses no later change."""
        base = os.path.join(self.work, "close-base")
        settings = os.path.join(self.work, "recycling.toml")
        with open(settings, "w", encoding="ascii") as file:
            file.write('target-file-size = "1KB"\npurge-threshold = "8KB"\n')
        self.run(base, "load", 60, 40, "--settings", settings)
        left = 0
        for call in range(1, 1000):
            folder = os.path.join(self.work, "close-killed")
            shutil.copytree(base, folder)
            ran = self.run(folder, "rewrite", "append", "--settings", settings, env=self.calling(KILL=str(call)))
            checked = self.run(folder, "check")
            left += b"plan left-over" in checked.stdout
            self.expect(f"call {call}: check: {checked.stdout}", checked.returncode in (0, 4))
            put = self.run(folder, "put", 1, "a", "b")
            self.expect(f"call {call}: a put: {put.stderr}", put.returncode == 0)
            self.expect(f"call {call}: a key", self.run(folder, "get", 1, 5).returncode == 0)
            shutil.rmtree(folder)
            if ran.returncode == 0:
                break
        self.expect(f"a killed close leaves files: {left} of {call}", left > 0)

    def other_file_system(self):
        """B1 of the review: a purge that recycles, with a second folder on another file system."""
        folder, settings = self.numbered("other-disk")
        second = os.path.join(folder, "second")
        os.mkdir(second)
        if subprocess.run(["mount", "-t", "tmpfs", "none", second], capture_output=True).returncode != 0:
            print("not tried: a second folder on another file system (no right to mount)")
            return
        try:
            for name in sorted(name for name in logs_in(folder) if name.endswith(".raftlog"))[:2]:
                shutil.move(os.path.join(folder, name), second)
            settings = os.path.join(self.work, "recycling-two.toml")
            with open(settings, "w", encoding="ascii") as file:
                file.write('target-file-size = "1KB"\npurge-threshold = "8KB"\nspill-dir = "second"\n')
            for words in ("rewrite append", "put 1 a b", "get 1 5", "check"):
                ran = self.run(folder, *words.split(), "--settings", settings)
                self.expect(f"{words} beside another disk: {ran.returncode} {ran.stderr}", ran.returncode == 0)
        finally:
            subprocess.run(["umount", second], check=True)

    def strays(self):
        """`repair --cut` moves a stray aside, and never the log that it hides; several and long ones too."""
        for name, numbers, data in [("one", [9], b"hello"), ("none", [9], b""), ("zeros", [9], b"\0" * 5000), ("two", [9, 10], b"hello")]:
            folder = self.with_stray(os.path.join(self.work, f"stray-{name}"))
            for number in numbers:
                with open(os.path.join(folder, name_of(number)), "wb") as file:
                    file.write(data)
            whole = bytes_of(os.path.join(folder, name_of(1)))
            ran = self.run(folder, "repair")
            self.expect(f"{folder}: a repair: {ran.stderr}", ran.returncode == (1 if len(numbers) > 1 else 7) and name_of(9).encode() in ran.stderr)
            ran = self.run(folder, "repair", "--cut")
            self.expect(f"{folder}: repair --cut: {ran.stderr}", ran.returncode == 0)
            aside = os.path.join(folder, name_of(9) + ".stray")
            self.expect(f"{folder}: it is kept", os.path.exists(aside) and bytes_of(aside) == data)
            self.expect(f"{folder}: the log stands", bytes_of(os.path.join(folder, name_of(1))).startswith(whole))
            ran = self.run(folder, "get", 1, 5)
            self.expect(f"{folder}: its keys are there", ran.returncode == 0 and not ran.stderr)
        folder = self.with_stray(os.path.join(self.work, "stray-with-record"))
        shutil.copy(os.path.join(folder, name_of(1)), os.path.join(folder, name_of(9)))
        self.without_note(folder)
        kinds = [line.split()[1] for line in lines_of(self.run(folder, "check").stdout)]
        self.expect(f"a file with a header is no stray: {kinds}", "stray" not in kinds and "passed" in kinds)

    def copies_below(self):
        """A backup copy in a folder below raises no alarm: the same, an older, a longer one, one of nothing."""
        for name, change in [
            ("same", lambda path: None),
            ("older", lambda path: os.truncate(path, os.path.getsize(path) // 2)),
            ("longer", lambda path: add(path, b"more")),
            ("empty", lambda path: os.truncate(path, 0)),
            ("bare", lambda path: os.truncate(path, 69)),
            ("headless", lambda path: flip(path, 3)),
        ]:
            folder, _ = self.numbered(f"copy-{name}")
            below = os.path.join(folder, "backup")
            os.mkdir(below)
            for each in logs_in(folder):
                shutil.copy(os.path.join(folder, each), below)
                change(os.path.join(below, each))
            ran = self.run(folder, "check")
            self.expect(f"a copy below, {name}: {ran.stdout}", ran.returncode == 0)
            ran = self.run(folder, "put", 1, "a", "b")
            self.expect(f"a put beside it: {ran.stderr}", ran.returncode == 0 and not ran.stderr)

    def agreements(self):
        """What check says of an opening, and how the opening ends."""
        def folder_named(folder, name):
            os.mkdir(os.path.join(folder, name))

        out = os.path.join(self.work, "out-of-it")
        os.mkdir(out)
        rows = [
            ("a folder named like a Rewrite file", [], lambda it: folder_named(it, name_of(9999999999999999, "rewrite"))),
            ("a folder named like an Append file", [], lambda it: folder_named(it, name_of(9))),
            ("a folder named like a reserved file", [], lambda it: folder_named(it, name_of(9, "raftlog.reserved"))),
            ("a link as the second folder", ["--spill", "second"], lambda it: os.symlink(out, os.path.join(it, "second"))),
            ("a link on the way to it", ["--spill", "a/second"], lambda it: os.symlink(out, os.path.join(it, "a"))),
            ("a dangling link as it", ["--spill", "second"], lambda it: os.symlink("none", os.path.join(it, "second"))),
            ("a file as it", ["--spill", "second"], lambda it: add(os.path.join(it, "second"), b"x")),
            ("no folder there", ["--spill", "second"], lambda it: None),
            ("one above", ["--spill", ".."], lambda it: None),
            ("itself", ["--spill", "."], lambda it: None),
            ("a link named like a log file", [], lambda it: os.symlink("x", os.path.join(it, name_of(2)))),
            ("a dangling link of another name", [], lambda it: os.symlink("x", os.path.join(it, "x"))),
            ("a pipe named like a log file", [], lambda it: os.mkfifo(os.path.join(it, name_of(2)))),
            ("a second name of a log file", [], lambda it: os.link(os.path.join(it, name_of(1)), os.path.join(it, "x"))),
            ("a link named like a reserved file", [], lambda it: os.symlink("x", os.path.join(it, name_of(2, "raftlog.reserved")))),
            ("a reserved file", [], lambda it: add(os.path.join(it, name_of(2, "raftlog.reserved")), b"x")),
            ("a torn tail", [], lambda it: add(os.path.join(it, name_of(1)), b"torn")),
            ("a lost first file", [], lambda it: os.rename(os.path.join(it, name_of(1)), os.path.join(it, name_of(2)))),
        ]
        for place, (case, words, make) in enumerate(rows):
            for mode in ("absolute", "tail", "any"):
                folder = os.path.join(self.work, f"agree-{place}-{mode}")
                self.run(folder, "load", 6, 40)
                make(folder)
                checked = self.run(folder, "check", "--mode", mode, *words)
                ran = self.run(folder, "put", 1, "a", "b", "--mode", mode, *words)
                wanted = {0: (0,), 1: (1,), 4: (0, 7), 5: (1,), 6: (0, 7)}[checked.returncode]
                self.expect(f"{case}, {mode}: check {checked.returncode}, put {ran.returncode}: {ran.stderr}", ran.returncode in wanted)

    def refused_openings(self):
        """B7 of the review: an opening that fails deletes and makes nothing; C7: what cannot be told is not done."""
        folder, _ = self.numbered("refused-opening")
        for name in sorted(logs_in(folder))[:1]:
            flip(os.path.join(folder, name), 69)
        with open(os.path.join(folder, name_of(1, "raftlog.reserved")), "wb") as file:
            file.write(b"\0" * 100)
        settings = os.path.join(self.work, "prefilled.toml")
        with open(settings, "w", encoding="ascii") as file:
            file.write('target-file-size = "1KB"\npurge-threshold = "8KB"\nprefill-for-recycle = true\n')
        before = state_of(folder)
        for words in (["put", 1, "a", "b"], ["put", 1, "a", "b", "--settings", settings], ["repair"], ["purge"]):
            ran = self.run(folder, *words)
            self.expect(f"{words}: {ran.returncode} {ran.stderr}", ran.returncode == 1 and b"plan broken" in ran.stderr)
            self.expect(f"{words} changes nothing", state_of(folder) == before)
        folder = self.with_tail(os.path.join(self.work, "untold"))
        size = os.path.getsize(os.path.join(folder, name_of(1)))
        with open("/dev/full", "wb") as full:
            ran = subprocess.run([self.program, folder, "put", "1", "a", "b"], stderr=full, timeout=60)
        self.expect("what cannot be told is not done", ran.returncode == 1 and os.path.getsize(os.path.join(folder, name_of(1))) == size)
        self.expect("and no file is kept", not [name for name in os.listdir(folder) if ".cut-" in name])

    def big_tails(self):
        """C4 of the review: the search of a big tail reports how far it is."""
        folder = os.path.join(self.work, "big-tail")
        self.run(folder, "load", 6, 40)
        add(os.path.join(folder, name_of(1)), os.urandom(96 << 20))
        for command in ("check", "put 1 a b"):
            ran = self.run(folder, *command.split())
            self.expect(f"{command} reports the search: {ran.stderr}", b"searched for records" in ran.stderr)
            self.expect(f"{command}: {ran.returncode}", ran.returncode == (4 if command == "check" else 0))

    def indexes(self):
        """C9 and C8 of the review: where the next entry begins, and which index is wanted."""
        folder = os.path.join(self.work, "indexes")
        self.run(folder, "append", 2, "a", "b")
        ran = self.run(folder, "compact", 2, 99)
        self.expect(f"a group without entries is told: {ran.stderr}", b"--at 99" in ran.stderr and ran.returncode == 0)
        self.run(folder, "append", 3, "a", "b")
        link = os.path.join(self.work, "leads-nowhere")
        os.symlink("none", link)
        ran = self.run(link, "put", 1, "a", "b")
        self.expect(f"a link that leads nowhere: {ran.stderr}", ran.returncode == 1 and b"leads nowhere" in ran.stderr)
        ran = self.run(folder, "append", 3, "z", "--at", 9)
        self.expect(f"which index is wanted: {ran.stderr}", ran.returncode == 1 and b"from 1 to 3" in ran.stderr)
        ran = self.run(folder, "compact", 3, 2)
        self.expect(f"else nothing is told: {ran.stderr}", not ran.stderr)
        folder = self.with_reserved(os.path.join(self.work, "kept-reserved"))
        self.expect("a look keeps reserved files", self.run(folder, "check").returncode == 0 and reserved_in(folder))
