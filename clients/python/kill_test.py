"""Kills a process that writes with syncs, some times, and finds each confirmed write again. Its log uses files again: what an
opening cuts off then is stale."""
import os
import random
import signal
import subprocess
import sys
import tempfile
import time

import raftlog

HERE = os.path.dirname(os.path.abspath(__file__))


def write(folder):
    log, i = raftlog.Engine(folder, 'target-file-size = "4KB"'), 0
    last = log.last_index(1) or 0
    while True:
        i += 1
        log.write(raftlog.LogBatch().add_entries(1, [(last + i, b"%d" % (last + i))]).put(2, b"last", b"%d" % (last + i)), True)
        print(last + i, flush=True)
        if i % 20 == 0:
            log.must_rewrite_append_queue()


def main(rounds):
    with tempfile.TemporaryDirectory() as folder:
        path, answered, cuts = os.path.join(folder, "log"), 0, 0
        for _ in range(rounds):
            child = subprocess.Popen([sys.executable, __file__, "write", path], stdout=subprocess.PIPE)
            first = child.stdout.readline()
            time.sleep(random.uniform(0.05, 0.4))
            child.send_signal(signal.SIGKILL)
            lines = (first + child.stdout.read()).split(b"\n")[:-1]
            child.wait()
            answered = max([answered] + [int(line) for line in lines])
            with raftlog.Engine(path) as log:
                assert all(cut.stale for cut in log.cuts()), log.cuts()
                cuts += len(log.cuts())
                last = log.last_index(1) or 0
                assert last in (answered, answered + 1), (last, answered)
                assert [e for e in log.fetch_entries(1, 1, last + 1)] == [(i, b"%d" % i) for i in range(1, last + 1)]
                assert last == 0 or log.get(2, b"last") == b"%d" % last
                answered = last
        print("ok", answered, cuts)


if __name__ == "__main__":
    write(sys.argv[2]) if sys.argv[1:2] == ["write"] else main(int(sys.argv[1]) if sys.argv[1:] else 5)
