#!/usr/bin/env python3
"""Tries how raftctl is watched, read by other programs, and used from a shell.

    tools/disk-tests/watch_tests.py crates/raftctl/out/raftctl [--keys N]

`watch` beside a load with and without purges, whose numbers are compared with what the load wrote and with `check`; the
picture on a terminal; each line of each command with --json, errors too, read by Python (and by jq if it is installed);
names with control characters; completion in bash (and zsh); a limit of file sizes; folders named like commands; entries
that a program decodes; the memory of an import. Prints what went wrong, and how much was tried; the status is 1 if
something did. N keys are loaded (30,000 without the word).
"""
import argparse
import json
import os
import pty
import random
import resource
import select
import shutil
import signal
import subprocess
import sys
import tempfile
import threading
import time

from folders import logs_in

DECODE = os.path.join(os.path.dirname(os.path.abspath(__file__)), "..", "decode")
SIZE = 100  # bytes of a loaded value


class Tests:
    def __init__(self, program, work):
        self.program, self.work = os.path.abspath(program), work
        self.tried = self.bad = 0
        self.small = self.file("small.toml", 'target-file-size = "32KB"\npurge-threshold = "96KB"\n')

    def file(self, name, text):
        path = self.place(name)
        with open(path, "w", encoding="utf-8") as file:
            file.write(text)
        return path

    def place(self, name):
        return os.path.join(self.work, name)

    def run(self, *words, **more):
        return subprocess.run([self.program, *map(str, words)], capture_output=True, timeout=600, **more)

    def start(self, *words):
        return subprocess.Popen([self.program, *map(str, words)], stdout=subprocess.PIPE, stderr=subprocess.PIPE)

    def expect(self, case, holds):
        self.tried += 1
        if not holds:
            self.bad += 1
            print(f"wrong: {case}", flush=True)

    def watched(self, name, keys, *words):
        """The looks at a log while a load writes it and, at the end, no more."""
        folder = self.place(name)
        self.run(folder, "put", 1, "first", "value", "--settings", self.small)
        watch, looks = self.start(folder, "watch", "--json"), []
        reader = threading.Thread(target=lambda: looks.extend(json.loads(line) for line in watch.stdout))
        reader.start()
        self.wait(watch, looks, 1)
        load = self.run(folder, "load", keys, SIZE, "--sync-each", 40, "--settings", self.small, *words)
        self.expect(f"{name}: a load under a watch: {load.stderr}", load.returncode == 0)
        # The look that is under way may have begun before the end.
        self.wait(watch, looks, len(looks) + 2)
        watch.terminate()
        reader.join()
        errors = watch.communicate()[1]
        self.expect(f"{name}: a watch: {errors}", not errors and watch.returncode == -signal.SIGTERM)
        return folder, looks

    def wait(self, watch, looks, count):
        """Waits for so many looks of a watch that goes on."""
        while len(looks) < count and watch.poll() is None:
            time.sleep(0.1)

    def agrees(self, name, folder, last):
        """The last look has the files, bytes and records of `check`."""
        files = [json.loads(line) for line in self.run(folder, "check", "--json").stdout.splitlines()]
        for queue, end in (("append", ".raftlog"), ("rewrite", ".rewrite")):
            held = [file for file in files if str(file.get("file", "")).endswith(end)]
            wanted = [len(held), sum(f["size"] for f in held), sum(f["records"] for f in held)]
            found = [last[f"{queue}-{what}"] for what in ("files", "bytes", "records")]
            self.expect(f"{name}: {queue} {found}, and check has {wanted}", found == wanted)

    def sums(self, keys):
        """Without a purge each key is counted once, and each record."""
        folder, looks = self.watched("sums", keys)
        puts = sum(group["puts"] for look in looks for group in look["groups"] if group["group"] == 1)
        size = sum(group["bytes"] for look in looks for group in look["groups"])
        digits = sum(len(str(number)) for number in range(keys))
        self.expect(f"{puts} puts of {keys}", puts == keys)
        self.expect(f"{size} bytes of keys and values", size == digits + keys * SIZE)
        records = sum(look["written-records"] for look in looks) + looks[0]["append-records"]
        self.expect(f"{records} records", records == looks[-1]["append-records"] == keys + 1)
        self.expect("nothing is dropped", all(not look["dropped"] and not look["unseen-files"] for look in looks))
        self.expect("a writer is told", any(look["writer"] == "open" for look in looks))
        self.expect("its end is told", looks[-1]["writer"] == "none")
        self.agrees("sums", folder, looks[-1])

    def purges(self, keys):
        """What purges drop: each name once, and all numbers below the first file that is left."""
        folder, looks = self.watched("purges", keys, "--purge-each", 400)
        self.agrees("purges", folder, looks[-1])
        dropped = [file["dropped"] for look in looks for file in look["dropped"]]
        unseen = sum(look["unseen-files"] for look in looks)
        self.expect("a name is dropped twice", len(dropped) == len(set(dropped)))
        self.expect("a file that was dropped is there", not set(dropped) & logs_in(folder))
        gone = sum(min(int(n[:16]) for n in logs_in(folder) if n.endswith(end)) - 1 for end in (".raftlog", ".rewrite"))
        self.expect(f"{len(dropped)} dropped, {unseen} unseen, {gone} gone", 0 < gone == len(dropped) + unseen)
        # A file can have no byte yet when a look sees it.
        size = sum(file["size"] for look in looks for file in look["dropped"])
        self.expect(f"{size} bytes dropped", size >= 1000 * len(dropped) and
                    size == sum(look["dropped-bytes"] for look in looks))

    def groups(self):
        """What is counted of each group is what was written of it after the first look."""
        folder, chance, model = self.place("groups"), random.Random(2), {}
        self.run(folder, "put", 1, "first", "value")
        watch = self.start(folder, "watch", "--json", "--count", 6, "--groups", 1000)
        looks = [json.loads(watch.stdout.readline())]
        for turn in range(4):
            pairs, entries = [], []
            for number in range(300):
                group, value = chance.randrange(200), "v" * chance.randrange(300)
                counted = model.setdefault(group, {"entries": 0, "puts": 0, "deletes": 0, "commands": 0, "bytes": 0})
                if chance.random() < 0.5:
                    pairs.append(f"{group}\tk{turn}-{number}\t{value}\n")
                    counted["puts"] += 1
                    counted["bytes"] += len(f"k{turn}-{number}") + len(value)
                else:
                    entries.append(f"{group}\t{value}\n")
                    counted["entries"] += 1
                    counted["bytes"] += len(value)
            for words, lines in ((["lines", "each", "-"], pairs), (["append", "each", "--lines", "-"], entries)):
                ran = self.run(folder, *words, "--wait", 9, input="".join(lines).encode())
                self.expect(f"{words}: {ran.stderr}", ran.returncode == 0)
            group = chance.choice(list(model))
            self.run(folder, "compact", group, 1, "--wait", 9)
            self.run(folder, "del", group, "none", "--wait", 9)
            model[group]["commands"] += 1
            model[group]["deletes"] += 1
            model[group]["bytes"] += len("none")
        looks += [json.loads(line) for line in watch.communicate(timeout=60)[0].splitlines()]
        found = {}
        for look in looks:
            for told in look["groups"]:
                counted = found.setdefault(told["group"], dict.fromkeys(("entries", "puts", "deletes", "commands", "bytes"), 0))
                for name in counted:
                    counted[name] += told[name]
        headers = {group: found.get(group, {}).get("bytes", 0) - counted["bytes"] for group, counted in model.items()}
        # An entry through raftctl begins with its term, kind and index, of 9 bytes and more (docs/FORMAT.md).
        for group, counted in model.items():
            wanted, got = dict(counted), dict(found.get(group, {}))
            wanted.pop("bytes"), got.pop("bytes", 0)
            self.expect(f"group {group}: {got}, wanted {wanted}", got == wanted)
            self.expect(f"bytes of {group}: {headers[group]} more", 0 <= headers[group] <= 30 * counted["entries"])
        self.expect("other groups", set(found) <= set(model))
        self.agrees("groups", folder, looks[-1])

    def plain(self):
        """Lines of words, and a folder that does not exist."""
        folder = self.place("plain")
        self.run(folder, "append", 7, "first", "second")
        watch = self.start(folder, "watch", "--count", 3, "--groups", 1)
        for number in range(6):
            ran = self.run(folder, "append", number % 2 + 7, "x" * (100 if number % 2 else 1), "--wait", 5)
            self.expect(f"an append under a watch: {ran}", ran.returncode == 0)
        told = watch.communicate(timeout=60)[0].decode().splitlines()
        self.expect("looks", [line.split()[:2] for line in told if line.startswith("look")] ==
                    [["look", "1"], ["look", "2"], ["look", "3"]])
        self.expect("one group at most", all(not (a.startswith("group") and b.startswith("group"))
                                             for a, b in zip(told, told[1:])))
        ran = self.run(self.place("nothing"), "watch", "--json")
        self.expect(f"no folder: {ran}", ran.returncode == 1 and "error" in json.loads(ran.stderr))
        ran = self.run(folder, "watch", "--count", "many", "--json")
        self.expect(f"no count: {ran}", ran.returncode == 2 and "error" in json.loads(ran.stderr))

    def drawn(self):
        """The picture on a terminal fits into 24 rows of 80 signs, and is drawn again."""
        folder = self.place("groups")
        inside, outside = pty.openpty()
        with subprocess.Popen([self.program, folder, "watch", "--count", "2"], stdout=outside) as watch:
            os.close(outside)
            lines = "".join(f"{group}\tvalue\n" for group in range(50)).encode()
            told = os.read(inside, 65536)
            self.run(folder, "append", "each", "--lines", "-", "--wait", 9, "--settings", self.small, input=lines)
            while select.select([inside], [], [], 30)[0]:
                try:
                    told += os.read(inside, 65536)
                except OSError:
                    break
            self.expect("a picture ends", watch.wait() == 0)
        pictures = told.decode().split("\x1b[H")[1:]
        self.expect(f"{len(pictures)} pictures", len(pictures) == 2 and pictures[1].count("\ngroup") == 10)
        for picture in pictures:
            rows = picture.replace("\x1b[K", "").replace("\x1b[J", "").split("\r\n")
            self.expect(f"rows {rows}", len(rows) <= 24 and all(len(row) <= 80 and row.isprintable() for row in rows))
            self.expect(f"queues {rows}", any(r.startswith("append") for r in rows) and "files" in picture)

    def json_lines(self, folder):
        """The command lines whose lines are read, some of which fail."""
        missing, broken = self.place("missing"), self.place("json-broken")
        shutil.copytree(folder, broken)
        name = max(n for n in logs_in(broken) if n.endswith(".raftlog"))
        with open(os.path.join(broken, name), "r+b") as file:
            file.seek(70)
            file.write(b"\xff" * 8)
        looks = [["get", 1, "key"], ["get", 1, "none"], ["list"], ["scan", 1], ["entry", 2, 1], ["entry", 2, 99],
                 ["entries", 2], ["groups"], ["stat"], ["sum"], ["dump"], ["dump", name], ["dump", "none"], ["check"],
                 ["consistency"], ["verify", 3, 4], ["settings"], ["watch", "--count", 1], ["picture"],
                 ["get", 1, "key", "--raw"], ["get", "x", "key"], ["nothing"], ["check", "--mode", "none"]]
        changes = [["put", 1, "other", "value"], ["del", 1, "other"], ["append", 2, "third"], ["truncate", 2, 3],
                   ["append", 2, "third"], ["compact", 2, 2], ["load", 3, 4], ["purge"], ["rewrite", "append"],
                   ["rewrite", "none"], ["repair", "--dry-run"], ["repair"], ["clean", 3], ["append", 2, "x", "--at", 99]]
        for words in looks:
            yield [folder, *words]
            yield [broken, *words]
            yield [missing, *words]
        for words in changes:
            yield [folder, *words]
            yield [broken, *words]
            yield ["/proc/none", *words]
        yield [broken, "fork", self.place("json-fork")]
        yield [broken, "salvage", self.place("json-saved")]
        yield [folder, "import", "--from-folder", broken]
        yield [folder, "import", self.file("bad.json", '{"kind":"put"}\n')]
        yield [folder, "lines", 1, self.file("bad.tsv", "no tab\n")]
        yield [folder, "settings", "--settings", self.file("bad.toml", "target-file-size = 1.5\nother = 1\n")]

    def each_line_is_json(self):
        folder = self.place("json")
        self.run(folder, "put", 1, "key", "value")
        self.run(folder, "put", 1, b"\xff\x00'\"\\".hex(), "00ff", "--hex")
        self.run(folder, "append", 2, "first", "second \x1b[31m")
        lines = []
        for words in self.json_lines(folder):
            ran = self.run(*words, "--json")
            self.expect(f"{words}: signal or status {ran.returncode}", 0 <= ran.returncode <= 7)
            for line in ran.stdout.splitlines() + ran.stderr.splitlines():
                lines.append(line)
                try:
                    self.expect(f"{words}: no object: {line}", isinstance(json.loads(line), dict))
                except ValueError:
                    self.expect(f"{words}: no JSON: {line}", False)
        if shutil.which("jq"):
            ran = subprocess.run(["jq", "-c", "."], input=b"\n".join(lines), capture_output=True, check=False)
            self.expect(f"jq: {ran.stderr}", ran.returncode == 0 and len(ran.stdout.splitlines()) == len(lines))

    def names(self):
        """Control characters of names and words reach no terminal."""
        sign = "x\x1b[31m\ny\x07\x9b"
        folder = self.place(sign)
        self.run(folder, "put", 1, "a", "b")
        with open(os.path.join(folder, sign), "w", encoding="ascii"):
            pass
        for words in ([self.place(sign + "z"), "get", 1, "a"], [folder, "check"], [folder, sign], [folder, "get", sign, "a"],
                      [folder, "check", "--mode", sign], [folder, "get", 1, sign], [folder, "dump", sign],
                      [folder, "put", 1, "a", "@" + sign], [folder, "settings", "--settings", sign],
                      [folder, "append", 1, "x", "--at", 9], [folder, "fork", folder], [folder, "salvage", folder],
                      [folder, "import", sign], [folder, "import", "--from-folder", sign], [folder, "watch", "--count", 1],
                      [folder, "lines", 1, sign], [folder, "put", 1, "a", "b", "--spill", sign]):
            ran = self.run(*words)
            told = (ran.stdout + ran.stderr).decode().replace("\n", "").replace("\t", "")
            self.expect(f"{words}: {told!r}", told.isprintable())

    def folders_like_commands(self):
        for name in ("groups", "check", "watch"):
            ran = self.run(name, "put", 1, "a", "b", cwd=self.work)
            self.expect(f"{name} put: {ran}", ran.returncode == 0 and os.path.isdir(self.place(name)))
            ran = self.run(name, "get", 1, "a", cwd=self.work)
            self.expect(f"{name} get: {ran}", ran.stdout == b"b\n")
        ran = self.run("groups", "--json", "--quiet", "get", 1, "a", cwd=self.work)
        self.expect(f"--json before get: {ran}", ran.stdout == b'{"value":"b"}\n')
        ran = self.run("help", "get", cwd=self.work)
        self.expect(f"help: {ran}", ran.returncode == 0 and b"Example" in ran.stdout)
        self.expect("no command", self.run("groups", cwd=self.work).returncode == 2)

    def limits(self):
        """A change does nothing where a limit of file sizes would end it by a signal; what helps makes that an error."""
        folder = self.place("limit")

        def limited(kilobytes, words, before=""):
            line = f'{before} ulimit -f {kilobytes}; exec "{self.program}" "{folder}" {words}'
            return subprocess.run(["bash", "-c", line], capture_output=True, check=False)

        for words in ("put 1 a b", "load 1000 1000", "repair"):
            ran = limited(20, words)
            told = b"20480 bytes" in ran.stderr and b"trap '' XFSZ" in ran.stderr and b"--target" in ran.stderr
            self.expect(f"a limit: {words}: {ran}", ran.returncode == 1 and told and not os.path.exists(folder))
        ran = limited(8192, "put 1 a b --target 1MB")
        self.expect(f"a smaller target: {ran}", ran.returncode == 0 and not ran.stderr)
        ran = limited(20, "get 1 a")
        self.expect(f"a look: {ran}", ran.stdout == b"b\n" and not ran.stderr)
        self.file("limit-value", "v" * 30000)
        ran = limited(20, f'put 1 a "@{self.place("limit-value")}"', "trap '' XFSZ;")
        self.expect(f"a limit as an error: {ran}", ran.returncode == 1 and b"File too large" in ran.stderr)
        self.expect("no limit, no word", b"ulimit" not in self.run(folder, "put", 1, "a", "b").stderr)

    def completes(self, shell, place, words, wanted):
        """What a shell offers after these words, of which the last one is begun."""
        line = " ".join(f"'{word}'" for word in words)
        script = f'''eval "$({self.program} --completion)"
            COMP_WORDS=({line}); COMP_CWORD={len(words) - 1}; _raftctl raftctl; printf '%s\\n' "${{COMPREPLY[@]}}"'''
        ran = subprocess.run([shell, "-c", script], capture_output=True, cwd=place, check=False)
        found = set(ran.stdout.decode().split("\n")) - {""}
        self.expect(f"{words}: {sorted(found)}, wanted {sorted(wanted)}; {ran.stderr}", wanted <= found and
                    not ran.stderr and (wanted or not found))
        return found

    def completion(self):
        place = self.place("complete")
        os.makedirs(os.path.join(place, "my log"))
        os.makedirs(os.path.join(place, "other"))
        self.file("complete/a file.toml", "")
        cases = [(["raftctl", "my"], {"my log"}), (["raftctl", "--co"], {"--completion"}), (["raftctl", "o"], {"other"}),
                 (["raftctl", "log", "wat"], {"watch"}), (["raftctl", "log", "--json", "che"], {"check"}),
                 (["raftctl", "log", "--js"], {"--json"}), (["raftctl", "log", "--json", "--quiet", "re"], {"repair", "rewrite"}),
                 (["raftctl", "log", "check", "--mode", ""], {"absolute", "tail", "any"}),
                 (["raftctl", "log", "dump", "--kind", "c"], {"clean", "compact"}),
                 (["raftctl", "log", "rewrite", ""], {"append", "rewrite", "stale"}),
                 (["raftctl", "log", "--json", "rewrite", "s"], {"stale"}),
                 (["raftctl", "log", "watch", "--"], {"--each", "--count", "--groups", "--json"}),
                 (["raftctl", "log", "put", "1", "rewrite", "a"], {"a file.toml"}),
                 (["raftctl", "log", "--json", "put", "--"], {"--no-sync", "--wait", "--cut"}),
                 (["raftctl", "log", "check", "--settings", "a"], {"a file.toml"}),
                 (["raftctl", "log", "check", "--spill", "my"], {"my log"}),
                 (["raftctl", "log", "watch", "--count", ""], set()), (["raftctl", "help", "sal"], {"salvage"})]
        for words, wanted in cases:
            self.completes("bash", place, words, wanted)
        found = self.completes("bash", place, ["raftctl", "log", ""], {"get", "watch", "put", "repair"})
        known = {line.split()[0] for line in self.run("--help").stdout.decode().split("Commands:")[1].split("\n\n")[0]
                 .splitlines() if line.split()} - {"help"}
        self.expect(f"{known ^ found}", len(known) > 25 and all(word in found for word in known))
        if shutil.which("zsh"):
            script = f'eval "$({self.program} --completion)"; whence -w _raftctl; print $_comps[raftctl]'
            ran = subprocess.run(["zsh", "-f", "-c", script], capture_output=True, check=False)
            self.expect(f"zsh: {ran}", b"_raftctl: function" in ran.stdout and b"_bash_complete" in ran.stdout)

    def decodes(self):
        """Each entry goes to a program and comes back as its text, with the line that it came from."""
        folder, values, chance = self.place("decode"), [], random.Random(1)
        for number in range(40):
            values.append(chance.randbytes(chance.randrange(1, 4000)))
            path = self.place("value")
            with open(path, "wb") as file:
                file.write(values[-1])
            self.run(folder, "append", 3, "@" + path)
            self.run(folder, "put", 3, f"key{number}", "x")
        dumped = self.run(folder, "dump", "--json").stdout
        ran = subprocess.run([DECODE, DECODE, "--hex"], input=dumped, capture_output=True, check=False)
        found = [json.loads(line) for line in ran.stdout.splitlines()]
        lines = [json.loads(line) for line in dumped.splitlines()]
        self.expect(f"a status: {ran.stderr}", ran.returncode == 0)
        self.expect("the lines of the dump", [{k: v for k, v in it.items() if k != "decoded"} for it in found] == lines)
        texts = [it["decoded"] for it in found if it["kind"] == "entry"]
        # An entry begins with its term, its kind and its index (docs/FORMAT.md); its value follows.
        self.expect("each value", len(texts) == len(values) and all(t.endswith(v.hex()) for t, v in zip(texts, values)))
        ran = subprocess.run([DECODE, "--text", DECODE, "--hex"], input=dumped, capture_output=True, check=False)
        self.expect("texts", [line.split(b"\t")[5].decode() for line in ran.stdout.splitlines()] == texts)
        for program in (["true"], ["false"], ["head", "-c", "5"]):
            ran = subprocess.run([DECODE, *program], input=dumped, capture_output=True, check=False)
            self.expect(f"{program}: {ran.stderr}", ran.returncode == 1 and ran.stderr)
        self.undecoded(dumped)
        ran = subprocess.run([DECODE, DECODE, "--hex"], input=b"no line\n", capture_output=True, check=False)
        self.expect(f"no line: {ran}", ran.returncode == 1 and b"line 1" in ran.stderr)

    def undecoded(self, dumped):
        """D8: a program without an answer, texts with control characters, and a dump that ends early."""
        for program in (["sh", "-c", "cat > /dev/null"], ["sleep", "60"]):
            ran = subprocess.run([DECODE, "--seconds", "1", *program], input=dumped, capture_output=True, check=False, timeout=30)
            self.expect(f"{program}: {ran.stderr}", ran.returncode == 1 and b"within 1.0 s" in ran.stderr)
        text = "a\x1b[31m\tb\nc\\d\u2028\u00e4"
        line = {"queue": "append", "number": 1, "offset": 69, "group": 1, "kind": "entry", "index": 1, "value": text}
        told = json.dumps(line).encode() + b"\n"
        # Without the option, `cat` returns each entry as its text.
        ran = subprocess.run([DECODE, "--text", "cat"], input=told, capture_output=True, check=False)
        wanted = "append\t1\t69\t1\t1\ta\\x1b[31m\\tb\\nc\\\\d\\u2028\u00e4\n"
        self.expect(f"control characters: {ran}", ran.returncode == 0 and ran.stdout.decode() == wanted)
        ran = subprocess.run([DECODE, "cat"], input=told, capture_output=True, check=False)
        self.expect(f"as an object: {ran}", ran.returncode == 0 and json.loads(ran.stdout) == {**line, "decoded": text})
        end = json.dumps({"queue": "append", "number": 1, "offset": 99, "error": "corruption"}).encode()
        for words in ([], ["--text"]):
            ran = subprocess.run([DECODE, *words, "cat"], input=told + end, capture_output=True, check=False)
            self.expect(f"a dump that ends early {words}: {ran}", ran.returncode == 4 and b"corruption" in ran.stderr)

    def memory_of(self, *words):
        """The status and the peak of a run, in bytes."""
        child = os.fork()
        if child == 0:
            with open(os.devnull, "wb") as null:
                os.dup2(null.fileno(), 1)
                os.execv(self.program, [self.program, *map(str, words)])
        _, status, used = os.wait4(child, 0)
        return os.waitstatus_to_exitcode(status), used.ru_maxrss * 1024

    def imports(self):
        """An import of a file has one line in memory; a wrong line is found before anything is written."""
        path = self.place("many.json")
        with open(path, "w", encoding="ascii") as file:
            for number in range(60000):
                file.write(json.dumps({"queue": "append", "number": 1, "offset": number // 8, "group": number % 5,
                                       "kind": "clean", "pad": "p" * 1000}) + "\n")
        status, used = self.memory_of(self.place("imported"), "import", path, "--quiet")
        self.expect(f"an import of 66 MB: status {status}, {used} bytes", status == 0 and used < 20e6)
        with open(path, "a", encoding="ascii") as file:
            file.write("no line\n")
        ran = self.run(self.place("not-imported"), "import", path)
        self.expect(f"a bad last line: {ran}", ran.returncode == 1 and b"line 60001" in ran.stderr
                    and not os.path.exists(self.place("not-imported")))
        old = b'{"queue":"append","file":1,"offset":1,"group":1,"kind":"put","key":"k","value":"v"}\n'
        ran = self.run(self.place("old"), "import", "-", input=old)
        self.expect(f"a dump of version 0.2: {ran}", ran.returncode == 0 and
                    self.run(self.place("old"), "get", 1, "k").stdout == b"v\n")


def main():
    arguments = argparse.ArgumentParser(description=__doc__, formatter_class=argparse.RawDescriptionHelpFormatter)
    arguments.add_argument("program")
    arguments.add_argument("--keys", type=int, default=30000)
    asked = arguments.parse_args()
    resource.setrlimit(resource.RLIMIT_CORE, (0, 0))
    with tempfile.TemporaryDirectory() as work:
        tests = Tests(asked.program, work)
        tests.folders_like_commands()
        tests.completion()
        tests.names()
        tests.limits()
        tests.each_line_is_json()
        tests.decodes()
        tests.imports()
        tests.groups()
        tests.plain()
        tests.drawn()
        tests.sums(asked.keys)
        tests.purges(asked.keys)
    print(f"{tests.tried} cases, {tests.bad} wrong")
    return 1 if tests.bad else 0


if __name__ == "__main__":
    sys.exit(main())
