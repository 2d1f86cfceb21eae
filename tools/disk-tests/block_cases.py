"""Corrupted blocks of LZ4: what an import reads is what liblz4 reads."""
import ctypes
import os
import shutil
import zlib

from folders import bytes_of, record, records_of

ENTRY = "an entry of a log that repeats itself " * 40


def decompress(library, block, length):
    """The bytes of a block that stands for so many, or None."""
    out = ctypes.create_string_buffer(length)
    found = library.LZ4_decompress_safe(block, out, len(block), length)
    return out.raw if found == length else None


class Blocks:
    """Cases of `rescue_tests.py`."""

    def corrupt(self, block):
        """The block with one or two bytes changed, inserted, or cut off with all after them."""
        out = bytearray(block)
        for _ in range(self.random.randrange(1, 3)):
            at = self.random.randrange(len(out))
            how = self.random.randrange(4)
            if how == 0:
                out[at] ^= 1 << self.random.randrange(8)
            elif how == 1:
                out[at] = self.random.randrange(256)
            elif how == 2:
                out.insert(at, self.random.randrange(256))
            else:
                del out[max(at, 1):]
        return bytes(out)

    def corrupted(self, count, compress):
        """Each block has a checksum that holds, so only its reading decides."""
        try:
            library = ctypes.CDLL("liblz4.so.1")
        except OSError:
            print("no liblz4.so.1: corrupted blocks are left out")
            return
        folder = self.place("corrupted")
        self.run(folder, "append", 5, ENTRY)
        name = "0000000000000001.raftlog"
        data = bytes_of(os.path.join(folder, name))
        at, _, block, footer = next(it for it in records_of(data)[0] if len(it[2]) > len(ENTRY))
        plain, end = block[:-4], at + 16 + len(block) + len(footer)
        read = 0
        for number in range(count):
            packed = compress(plain)
            packed = packed[:4] + (self.corrupt(packed[4:]) if number else packed[4:])
            wanted = decompress(library, packed[4:], len(plain))
            changed = record(1, packed + zlib.crc32(packed).to_bytes(4, "little"), footer)
            with open(os.path.join(folder, name), "wb") as file:
                file.write(data[:at] + changed + data[end:])
            taken = self.place("taken-corrupted")
            ran = self.run(taken, "import", "--from-folder", folder)
            found = None
            if ran.returncode == 0:
                records = records_of(bytes_of(os.path.join(taken, name)))[0]
                found = next((it[2][:-4] for it in records if len(it[2]) > 4), b"")
            read += found is not None
            self.expect(f"corrupted block {packed.hex()}: {ran}", found == wanted and ran.returncode in (0, 4, 7))
            shutil.rmtree(taken, ignore_errors=True)
        print(f"corrupted blocks: {read} read, {count - read} refused, each as by liblz4")
