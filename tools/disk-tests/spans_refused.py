#!/usr/bin/env python3
"""Tries that raftctl remembers a lost file although notes are refused.

    spans_refused.py RAFTCTL WORK

The last file of a log is taken away, and then a load gives its number to another file; or the first one is, and a purge drops
files after it. The first writes of the note SPANS fail, from none to all of the purge's. Then the note is put back as its last
sync left it, as a power cut may: `check` must report a loss with 6. Status: 0 if it does each time. raft_disk of 77cd550b forgets
some losses of both kinds, that of a59b04a9 those of a purge from 4 refused notes on. If RAFTCTL isn't built, all is left out."""
import os
import shutil
import subprocess
import sys

SETTINGS = 'target-file-size = "4KB"\npurge-threshold = "64KB"\nenable-log-recycle = false\n'
KEYS, SIZE = 60, 400


class Log:
    def __init__(self, raftctl, work):
        self.raftctl, self.work = raftctl, work
        self.folder, self.settings, self.synced = (os.path.join(work, name) for name in ('log', 'settings', 'synced'))
        with open(self.settings, 'w') as file:
            file.write(SETTINGS)
        self.recorder = os.path.join(work, 'spans_refused.so')
        source = os.path.join(os.path.dirname(os.path.abspath(__file__)), 'spans_refused.c')
        subprocess.run(['cc', '-shared', '-fPIC', '-O1', '-o', self.recorder, source, '-ldl'], check=True)

    def run(self, *words, refused=None):
        more = {} if refused is None else {'LD_PRELOAD': self.recorder, 'REFUSED': str(refused), 'SYNCED': self.synced}
        command = [self.raftctl, self.folder, *map(str, words), '--settings', self.settings]
        return subprocess.run(command, capture_output=True, text=True, env={**os.environ, **more})

    def begin(self):
        shutil.rmtree(self.folder, ignore_errors=True)
        if os.path.exists(self.synced):
            os.unlink(self.synced)
        ran = self.run('load', KEYS, SIZE, '--sync-each', 1)
        assert ran.returncode == 0, ran.stderr
        return sorted(name for name in os.listdir(self.folder) if name.endswith('.raftlog'))

    def crash(self):
        """The note as its last sync left it; none if none was synced since it was removed."""
        note = os.path.join(self.folder, 'SPANS')
        if os.path.exists(self.synced):
            shutil.copyfile(self.synced, note)
        elif os.path.exists(note):
            os.unlink(note)


def is_remembered(log, which, words, refused):
    files = log.begin()
    os.unlink(os.path.join(log.folder, files[which]))
    ran = log.run(*words, refused=refused)
    if ran.returncode != 0:
        print(f'{words}: {ran.returncode} {ran.stdout}{ran.stderr}')
        return False
    log.crash()
    told = log.run('check')
    if told.returncode == 6 and 'missing' in told.stdout:
        return True
    print(f'{words}, {refused} notes refused: check ends with {told.returncode}: {told.stdout}{told.stderr}')
    return False


def main():
    raftctl, work = sys.argv[1:]
    if not os.path.exists(raftctl):
        print('no raftctl, refused notes are left out')
        return 0
    os.makedirs(work, exist_ok=True)
    log = Log(os.path.abspath(raftctl), work)
    cases = [(-1, ('load', KEYS, SIZE, '--sync-each', 1, '--cut'), 12), (0, ('rewrite', 'append', '--cut'), 12)]
    held = [is_remembered(log, which, words, refused) for which, words, count in cases for refused in range(count)]
    print(f'{held.count(True)} of {len(held)} losses are remembered')
    return 0 if all(held) else 1


if __name__ == '__main__':
    sys.exit(main())
