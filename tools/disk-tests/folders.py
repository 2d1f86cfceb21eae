"""What stands in the folders of these tests."""
import os
import stat

HEADER = 69  # bytes of a file's header in version 2


def state_of(folder):
    """Each path below a folder with its kind, rights, number, time of change and bytes."""
    found = {}
    for at, _, names in os.walk(folder):
        for path in [at] + [os.path.join(at, name) for name in names]:
            info = os.lstat(path)
            data = None
            if stat.S_ISREG(info.st_mode):
                with open(path, "rb") as file:
                    data = file.read()
            found[path] = (info.st_mode, info.st_ino, info.st_mtime_ns, info.st_ctime_ns, data)
    return found


def bytes_of(path):
    with open(path, "rb") as file:
        return file.read()


def add(path, data):
    with open(path, "ab") as file:
        file.write(data)


def flip(path, at):
    """Changes a bit."""
    with open(path, "r+b") as file:
        file.seek(at)
        byte = file.read(1)[0]
        file.seek(at)
        file.write(bytes([byte ^ 1]))


def logs_in(folder):
    return {name for name in os.listdir(folder) if name.endswith((".raftlog", ".rewrite"))}


def reserved_in(folder):
    return {name for name in os.listdir(folder) if name.endswith(".reserved")}


def numbers_in(told):
    """Of lines of a word and a number, the number by the word; `dropped` and the like have more behind it."""
    lines = [line.split() for line in told.splitlines() if not line.startswith((b"group ", b"file "))]
    return {line[0].decode(): int(line[1]) for line in lines}


def records_of(data):
    """Of a file's bytes each record's place, kind, entries block and footer; and where they end."""
    at, found = 61 if data[60] == 1 else HEADER, []
    while len(data) - at >= 16:
        size, footer = int.from_bytes(data[at : at + 8], "big"), int.from_bytes(data[at + 8 : at + 16], "big")
        length = size >> 8
        if size % 256 > 1 or footer < 16 or length < footer + 5 or at + length > len(data):
            break
        found.append((at, size % 256, data[at + 16 : at + footer], data[at + footer : at + length]))
        at += length
    return found, at


def record(kind, block, footer):
    """The bytes of a record; its block is compressed if the kind is 1."""
    length = 16 + len(block) + len(footer)
    return (256 * length + kind).to_bytes(8, "big") + (16 + len(block)).to_bytes(8, "big") + block + footer
