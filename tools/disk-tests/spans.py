"""What the file SPANS of a log's folder says (docs/FORMAT.md), as crates/raft_disk and clients/c/spans.c judge it."""
import os
import re
import zlib

MAGIC = b'RAFT-LOG-SPANS-1'
SLOT = 512
ENDS = ('raftlog', 'rewrite')


class Span:
    def __init__(self, first=1, last=0, is_dropping=False, has_lost=False):
        self.first, self.last, self.is_dropping, self.has_lost = first, last, is_dropping, has_lost

    def copy(self):
        return Span(self.first, self.last, self.is_dropping, self.has_lost)

    def end(self, files):
        end = self.last
        while end + 1 in files:
            end += 1
        return end

    def front(self, files):
        if not self.is_dropping:
            return self.first
        later = [number for number in files if number >= self.first]
        return max(self.first, min(later + [self.last]))

    def is_stale(self, files):
        end = self.end(files)
        has_own = any(self.first <= number <= self.last for number in files)
        return end > self.last + 1 or (any(number > end for number in files) and not has_own)

    def __eq__(self, other):
        return vars(self) == vars(other)

    def at_opening(self, files, knows_loss):
        """The span with which an opening goes on; None if none is known: a file may be missing, and there is no true note. If
        the note reports a loss, of this queue or the other one, the files that are read are enough."""
        if self.is_stale(files):
            run = kept(files)
            return Span(run[0], run[-1], has_lost=self.has_lost) if knows_loss or run[0] == min(files) else None
        return Span(self.front(files), self.end(files), has_lost=self.has_lost)

    def add(self, number):
        """A file was made: whether that changes the span."""
        if self.last == 0:
            self.first = self.last = number
        elif number < self.first:
            self.first = number
        elif number == self.last + 1:
            self.last = number
        else:
            return False
        return True

    def leave(self, number):
        """A file gets another name or is deleted: whether that changes the span."""
        if not self.first <= number <= self.last:
            return False
        if self.first == self.last:
            self.first, self.last, self.is_dropping = 1, 0, False
        elif number == self.last:
            self.last = number - 1
        else:
            self.first = number + 1
        return True

    def delete(self, number):
        """A file is deleted, and perhaps those after it: whether the note must be written before."""
        first, is_next = self.first, self.is_dropping and number == self.first
        is_changed = self.leave(number)
        self.is_dropping = self.is_dropping or first < self.first
        return is_changed and not is_next

    def report(self, files):
        """Missing, stray and left-over numbers, and whether the note is stale. `has_lost` says whether files were missing before."""
        if self.is_stale(files):
            return [], [], [], True
        end = self.end(files)
        missing = [number for number in range(self.front(files), self.last + 1) if number not in files]
        return missing, [it for it in files if it > end], [it for it in files if it < self.first], False


def kept(files):
    """The files that an opening reads: those after the last missing number."""
    run = []
    for number in sorted(files):
        run = run + [number] if run and run[-1] + 1 == number else [number]
    return run


def notes_in(folder):
    """The spans of both queues and the second folder's path, by the later slot; None without a note."""
    try:
        with open(os.path.join(folder, 'SPANS'), 'rb') as file:
            given = file.read()
    except FileNotFoundError:
        return None
    latest = None
    for slot in (given[at:at + SLOT] for at in range(0, len(given), SLOT)):
        if len(slot) < SLOT or not slot.startswith(MAGIC) or zlib.crc32(slot[:-4]) != int.from_bytes(slot[-4:], 'little'):
            continue
        count, *spans, flags, size = (int.from_bytes(slot[at:at + 8], 'big') for at in range(16, 72, 8))
        append = Span(*spans[:2], bool(flags & 1), bool(flags & 4))
        rewrite = Span(*spans[2:], bool(flags & 2), bool(flags & 8))
        if latest is None or count > latest[0]:
            latest = count, (append, rewrite), slot[72:72 + size].decode()
    return latest and latest[1:]


def numbers_in(folder, spill, end):
    """The numbers of a queue's files."""
    numbers = set()
    for place in {folder, os.path.join(folder, spill)}:
        if os.path.isdir(place):
            found = (re.fullmatch(rf'(\d{{16}})\.{end}', name) for name in os.listdir(place))
            numbers.update(int(it[1]) for it in found if it)
    return numbers


def losses_in(folder):
    """Of each queue what its note reports as missing and as strays, as text; None if it reports nothing."""
    noted = notes_in(folder)
    if noted is None:
        return None
    spans, spill = noted
    told = []
    for span, end in zip(spans, ENDS):
        missing, strays, _, _ = span.report(numbers_in(folder, spill, end))
        if missing or strays:
            told.append(f'{end}: missing {missing}, strays {strays}')
        if span.has_lost:
            told.append(f'{end}: missing before')
    return '; '.join(told) or None
