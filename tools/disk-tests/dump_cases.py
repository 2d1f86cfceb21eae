"""What `dump` prints of records whose entries are damaged, what an import makes of that, and files that it does not find."""
import json
import os
import shutil

from folders import bytes_of, flip, records_of

ERROR = {"queue": "append", "number": 1, "error": "corruption"}


def entry(record, index, value="v"):
    return {"offset": record, "group": 1, "kind": "entry", "index": index, "value": value}


def put(record, key):
    return {"offset": record, "group": 1, "kind": "put", "key": key, "value": "v"}


def entries(count, size=1):
    return [entry(place, place + 1, "v" * size) for place in range(count)]


# The items of a log by their records, and the record whose entries are damaged.
DAMAGED = [
    ("one", entries(1), 0),
    ("first", entries(3), 0),
    ("middle", entries(3), 1),
    ("last", entries(3), 2),
    ("mixed", [put(0, "a"), put(1, "b"), entry(1, 1), put(1, "c"), put(2, "d")], 1),
    ("parts", entries(20, 60000), 15),
    ("long", [entry(0, 1), entry(1, 2, "v" * 600000), entry(2, 3)], 1),
    ("second", entries(1) + [entry(1, 2), {**entry(1, 1), "group": 2}, entry(2, 3)], 1),
]


class Dumps:
    """Cases of `look_tests.py`."""

    def written(self, name, items):
        """A log with these items, and the path of its file."""
        folder = os.path.join(self.work, name)
        lines = "".join(json.dumps({"queue": "append", "number": 1, **item}) + "\n" for item in items)
        ran = self.run(folder, "import", "-", input=lines.encode())
        self.expect(f"{name}: it is written: {ran}", ran.returncode == 0)
        return folder, os.path.join(folder, f"{1:016}.raftlog")

    def items_of(self, ran):
        """The items of a dump without the places of their records, and the error at its end."""
        lines = [json.loads(line) for line in ran.stdout.splitlines()]
        names = ("group", "kind", "index", "key", "value")
        items = [{name: each[name] for name in names if name in each} for each in lines if "error" not in each]
        return items, [each for each in lines if "error" in each]

    def damaged_dumps(self):
        """D1: a dump ends at a record whose entries do not have their checksum, and an import has what is before it."""
        for name, items, damaged in DAMAGED:
            for part in ("entries", "checksum"):
                folder, path = self.written(f"damaged-{name}-{part}", items)
                at, _, block, _ = records_of(bytes_of(path))[0][damaged]
                flip(path, at + 16 if part == "entries" else at + 16 + len(block) - 1)
                before = [item for item in items if item["offset"] < damaged]
                wanted = [{key: value for key, value in item.items() if key != "offset"} for item in before]
                for words in ([], [os.path.basename(path)], [path]):
                    ran = self.run(folder, "dump", "--json", *words)
                    found, errors = self.items_of(ran)
                    ended = ran.returncode == 4 and errors == [{**ERROR, "offset": at}]
                    self.expect(f"{name}, {part}: dump {words}: {ran.returncode} {errors}", ended and found == wanted)
                self.is_not_laundered(f"{name}, {part}", ran.stdout, before)
                self.expect(f"{name}, {part}: check agrees", self.run(folder, "check").returncode == 4)
                shutil.rmtree(folder)

    def is_not_laundered(self, case, dump, before):
        """An import of the dump says that it ends early, and writes the items before the damage."""
        target, other = os.path.join(self.work, "from-damaged"), os.path.join(self.work, "from-sound")
        ran = self.run(target, "import", input=dump)
        told = b"the dump ends before the end of a file" in ran.stderr
        self.expect(f"{case}: import: {ran}", ran.returncode == 4 and told)
        if before:
            self.written("from-sound", before)
            self.expect(f"{case}: what it wrote", self.run(target, "sum").stdout == self.run(other, "sum").stdout)
        for folder in (target, other):
            shutil.rmtree(folder, ignore_errors=True)

    def damaged_first_file(self):
        """A dump of all files goes on with the next file."""
        folder = os.path.join(self.work, "damaged-first")
        for value in ("one", "two", "three"):
            self.run(folder, "append", 1, value, "--target", "1KB")
        self.run(folder, "append", 1, "x" * 1000, "--target", "1KB")
        self.run(folder, "append", 1, "last", "--target", "1KB")
        path = os.path.join(folder, f"{1:016}.raftlog")
        flip(path, records_of(bytes_of(path))[0][1][0] + 16)
        found, errors = self.items_of(self.run(folder, "dump", "--json"))
        values = [item["index"] for item in found]
        self.expect(f"the next file: {values} {errors}", len(errors) == 1 and values[0] == 1 and values[-1] == 5 and 2 not in values)

    def absent_files(self):
        """D9: a dump of a file that does not exist says so."""
        folder, path = self.written("absent-files", entries(1))
        name = os.path.basename(path)
        with open(os.path.join(folder, "notes"), "w", encoding="ascii") as file:
            file.write("no log")
        for word, said in [(f"{name}.cut-685", b"there is no such file"), (f"{folder}/{name}.cut-685", b"there is no such file"),
                           (f"{2:016}.raftlog", b"there is no such file"), ("notes", b"does not begin with a log file's")]:
            ran = self.run(folder, "dump", word)
            self.expect(f"dump {word}: {ran}", ran.returncode == 1 and said in ran.stderr)
