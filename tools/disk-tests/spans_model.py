"""A model of a log's file names and of the note of their spans (SPANS), with crashes.

    spans_model.py [--seeds N]

Each seed is a list of rotations, recycled rotations, purges, closes, openings and crashes of one queue. A crash may come
before and after each change of a name and each write of the note. Names change at once, in their order. A written note that
was not synced may be there or not: any of those since the last sync. Three programs write notes: raft_disk, which sees one
call at a time; the library for C, which sees the deletions of a purge together; and another one that writes none.

The model fails if a note ever reports as missing, stray or lost before what only crashes did, except beside the program that
writes no notes: what is reported falsely there is counted. It counts what is reported of files that are taken away, or put
there, between two calls. The controls must report something false: a note that is written too late, or that is not synced.
In the runs `lossy` files are taken away for good: from the first opening that reports one on, each opening must report a loss.
Without the mark of losses some openings must forget one. Beside a program that writes no notes a mark stays too; it must not
if a stale note with a gap of the numbers is removed (`unknown gap`). Status: 0 if all this is so."""
import argparse
import itertools
import random
import sys

from spans import Span, kept

RUNS = ('disk', 'c', 'mixed', 'foreign')
LOSSY, LOSSY_FOREIGN, NO_MARK, UNKNOWN_GAP = 'lossy', 'lossy, foreign', 'lossy without a mark', 'unknown gap'
LOSS_CHANCES = {LOSSY: .2, LOSSY_FOREIGN: .8}
CONTROLS = ('first-late', 'first-unsynced', 'slots-in-turn', 'last-early', 'no-dropping-mark')


TORN = (0, None)


class Crash(Exception):
    """The process ends here."""


class Log:
    """The files of a queue, what a crash leaves of the note, and the process that has the log open."""

    def __init__(self, chance, writer, control, check):
        self.chance, self.writer, self.control, self.check = chance, writer, control, check
        self.files, self.needed, self.last = set(), 1, 0
        self.slots, self.synced, self.count = [[TORN], [TORN]], 1, 0
        self.span, self.is_behind = None, False
        self.missing, self.was_reported, self.forgotten, self.openings = [], False, 0, 0
        self.was_marked, self.unmarked = False, 0
        self.crash_in = None
        self.syncs = self.rotations = self.purges = self.deleted = 0

    # ---- what the disk does

    def moment(self):
        self.check(self)
        if self.crash_in is not None:
            self.crash_in -= 1
            if self.crash_in < 0:
                raise Crash

    def notes(self):
        """What a crash may leave: of each slot any of the notes that it may hold; the later one counts."""
        return [max(pair, key=lambda it: it[0])[1] for pair in itertools.product(*self.slots)]

    def current(self):
        """The note that a process reads now."""
        return max((slot[-1] for slot in self.slots), key=lambda it: it[0])[1]

    def write(self, is_synced):
        if self.span is None:
            return
        self.count += 1
        place = self.count % 2 if self.control == 'slots-in-turn' else 1 - self.synced
        self.slots[place] += [TORN, (self.count, self.span.copy())]
        self.is_behind = False
        self.moment()
        if is_synced and self.control != 'first-unsynced':
            self.slots = [[slot[-1]] for slot in self.slots]
            self.synced = place
            self.syncs += 1
            self.moment()

    def remove(self, number):
        self.files.discard(number)
        self.moment()

    # ---- what the writer does

    def lose(self, is_lost):
        """Marks that a missing file can't be put back: whether that is new."""
        is_new = is_lost and not self.span.has_lost and self.control != NO_MARK
        self.span.has_lost |= is_new
        return is_new

    def lose_passed(self):
        return self.lose(any(number < self.span.first for number in self.missing))

    def make(self, number, old=None):
        """Makes a file, or renames one to it."""
        if old is not None:
            self.leave(old)
        if self.span and self.lose(any(number <= other for other in self.missing)):
            self.write(True)
        if self.control == 'last-early' and self.span:
            self.span.last = max(self.span.last, number)
            self.write(True)
        if old is not None:
            self.files.discard(old)
        self.files.add(number)
        self.last = number
        self.moment()
        if self.span is None:
            return
        if not self.span.add(number):
            return
        self.span.is_dropping = False
        self.write(True)

    def leave(self, number, up_to=None):
        if self.span is None:
            self.forget()
        elif self.span.leave(up_to or number) and self.control != 'first-late':
            self.lose_passed()
            self.write(True)

    def forget(self):
        """Before a name goes, a process that knows no span removes the note."""
        if self.writer != 'foreign':
            self.unmarked += self.was_marked
            self.slots, self.synced, self.was_marked = [[TORN], [TORN]], 1, False

    def delete(self, number, up_to):
        if self.writer == 'c' or self.span is None:
            self.leave(number, up_to)
        elif self.span.first <= number <= self.span.last:
            self.is_behind = True
            is_due = self.span.delete(number)
            is_due |= self.lose_passed()
            if self.control == 'no-dropping-mark':
                self.span.is_dropping = False
                is_due = number % 2
            if is_due and self.control != 'first-late':
                self.write(True)
        self.remove(number)
        self.deleted += 1

    def catch_up(self):
        if self.span is not None and self.is_behind:
            self.span.is_dropping = False
            self.write(False)
        if self.control == 'first-late':
            self.write(True)

    # ---- what the engine does

    def spares(self):
        return sorted(number for number in self.files if number < self.needed)

    def rotate(self):
        self.rotations += 1
        spares = self.spares() if self.chance.random() < .8 else []
        self.make(self.last + 1, spares[0] if spares else None)
        self.catch_up()

    def purge(self):
        if self.last - self.needed < 1:
            return
        self.purges += 1
        to = self.chance.randint(self.needed + 1, self.last)
        room = max(0, self.chance.choice((0, 0, 2, 6)) - len(self.spares()))
        gone = [number for number in range(self.needed, to)]
        self.needed = to
        for number in gone[room:]:
            self.delete(number, gone[-1])
        if self.chance.random() < .8:
            self.catch_up()

    def close(self):
        """Gives the spares reserved names, from the last one on, as far as one has none."""
        self.catch_up()
        for number in reversed(self.spares()):
            self.leave(number)
            self.remove(number)

    def open(self, writer):
        """Reads the note and the names. A crash before it chose what is there."""
        run = kept(self.files)
        self.writer = writer
        note = self.current()
        self.needed = max(self.needed, run[0]) if run else 1
        self.last = run[-1] if run else 0
        if writer == 'foreign':
            self.span = None
        else:
            knows_loss = self.see_losses(note or Span()) and self.control != UNKNOWN_GAP
            self.span = (note or Span()).at_opening(self.files, knows_loss)
            if self.span is not None and self.span != (note or Span()):
                self.write(True)
        if not run:
            self.make(1)

    def see_losses(self, note):
        """Notes what an opening reports; returns whether it reports a loss."""
        self.missing, strays, _, _ = note.report(self.files)
        has_losses = bool(self.missing or strays or note.has_lost)
        self.openings += self.was_reported
        self.forgotten += self.was_reported and not has_losses
        self.was_reported |= has_losses
        self.unmarked += self.was_marked and not note.has_lost
        self.was_marked |= note.has_lost
        return has_losses

    def take_away(self):
        """Someone deletes files that are needed: one of them, the last one, or all."""
        needed = sorted(number for number in self.files if number >= self.needed)
        if needed:
            self.files -= set(self.chance.choice((needed[-1:], [self.chance.choice(needed)], needed)))

    def crash(self):
        self.slots = [[self.chance.choice(slot)] for slot in self.slots]
        self.synced = self.slots.index(max(self.slots, key=lambda slot: slot[0][0]))
        self.count = max(slot[0][0] for slot in self.slots)
        self.span = None


class Counts:
    def __init__(self):
        self.images = self.false = self.hidden = self.gone = self.ends = self.ends_hidden = self.alls = 0
        self.alls_hidden = self.strays = self.strays_hidden = self.no_note = self.stale = self.gaps = 0

    def look(self, log):
        """A crash at this moment."""
        note = log.chance.choice(log.notes())
        self.images += 1
        self.gaps += bool(log.files) and kept(log.files)[0] != min(log.files)
        if note is None:
            self.no_note += 1
            return
        missing, strays, _, is_stale = note.report(log.files)
        self.stale += is_stale
        self.false += bool(missing or strays or note.has_lost)

    def spoil(self, log):
        """Someone takes files away, or puts one there, between two calls."""
        note = log.current()
        if note is None or log.span is None or not log.files or note.is_stale(log.files):
            return
        tells = lambda files: bool([it for it in note.report(files)[:2] if it]) or note.report(files)[3]
        needed = [number for number in log.files if number >= log.needed]
        self.gone += 1
        self.hidden += not tells(log.files - {log.chance.choice(needed)})
        self.ends += 1
        self.ends_hidden += not tells(log.files - {max(log.files)})
        self.alls += 1
        self.alls_hidden += not tells(set())
        self.strays += 1
        self.strays_hidden += not tells(log.files | {log.last + log.chance.randint(2, 9)})


def play(seed, run, control, counts):
    chance = random.Random(seed)
    writer_of = {LOSSY: lambda: chance.choice(('disk', 'c')),
                 LOSSY_FOREIGN: lambda: chance.choice(('disk', 'c', 'foreign')), 'disk': lambda: 'disk',
                 'c': lambda: 'c', 'mixed': lambda: chance.choice(('disk', 'c')), 'foreign': lambda: chance.choice(('disk', 'c', 'foreign'))}[run]
    log = Log(chance, 'disk', control, counts.look)
    log.open(writer_of())
    for _ in range(40):
        try:
            log.crash_in = chance.randint(0, 12) if chance.random() < .15 else None
            step = chance.random()
            if step < .55:
                log.rotate()
            elif step < .85:
                log.purge()
            else:
                log.close()
                log.crash_in = None
                log.crash()
                if run in LOSS_CHANCES and chance.random() < LOSS_CHANCES[run]:
                    log.take_away()
                log.open(writer_of())
            counts.spoil(log)
        except Crash:
            log.crash_in = None
            log.crash()
            log.open(writer_of())
    return log


def main():
    parser = argparse.ArgumentParser(description=__doc__, formatter_class=argparse.RawDescriptionHelpFormatter)
    parser.add_argument('--seeds', type=int, default=300)
    words = parser.parse_args()
    is_good = True
    for run, control in [(run, '') for run in RUNS] + [('disk', control) for control in CONTROLS]:
        counts = Counts()
        logs = [play(seed, run, control, counts) for seed in range(words.seeds)]
        total = {it: sum(getattr(log, it) for log in logs) for it in ('syncs', 'rotations', 'purges', 'deleted')}
        known = ' (known: a program that ignores the note dropped files)' if run == 'foreign' else ''
        print(f'{control or run}: {counts.images} crash images, {counts.false} false reports{known}, {counts.no_note} without a note, '
              f'{counts.stale} stale; a gap of names in {counts.gaps}')
        print(f'    not reported: {counts.hidden} of {counts.gone} needed files, {counts.ends_hidden} of {counts.ends} last ones, '
              f'{counts.alls_hidden} of {counts.alls} times all, {counts.strays_hidden} of {counts.strays} strays; {total}')
        is_good = is_good and bool(known or bool(control) == (counts.false > 0))
    for control in ('', NO_MARK):
        logs = [play(seed, LOSSY, control, Counts()) for seed in range(words.seeds)]
        openings, forgotten = (sum(getattr(log, it) for log in logs) for it in ('openings', 'forgotten'))
        print(f'{control or LOSSY}: {openings} openings after a loss was reported, {forgotten} of them report nothing')
        is_good = is_good and openings and bool(control) == (forgotten > 0)
    for control in ('', UNKNOWN_GAP):
        logs = [play(seed, LOSSY_FOREIGN, control, Counts()) for seed in range(words.seeds)]
        unmarked, marked = sum(log.unmarked for log in logs), sum(log.was_marked for log in logs)
        print(f'{control or LOSSY_FOREIGN}: {marked} logs end with a mark, {unmarked} times one was lost')
        is_good = is_good and marked and bool(control) == (unmarked > 0)
    print('as it should be' if is_good else 'NOT AS IT SHOULD BE')
    return 0 if is_good else 1


if __name__ == '__main__':
    sys.exit(main())
