"""ns per put and get over a log in memory: `bench.py [COUNT]`."""
import struct
import sys
import time

from raftlog import Engine, LogBatch


def key_of(number):
    return struct.pack("<QQ", number * 0x9E3779B97F4A7C15 & (2**64 - 1) | 0x80, number)


def main(count):
    value = bytes(range(100))
    with Engine() as log:
        start = time.perf_counter_ns()
        for i in range(count):
            log.write(LogBatch().put(1 + i % 100, key_of(i), value))
        put = time.perf_counter_ns() - start
        start = time.perf_counter_ns()
        for i in range(count):
            j = i * 7919 % count
            assert log.get(1 + j % 100, key_of(j)) == value
        get = time.perf_counter_ns() - start
    print(f"put {put // count} ns, get {get // count} ns")


if __name__ == "__main__":
    main(int(sys.argv[1]) if sys.argv[1:] else 100000)
