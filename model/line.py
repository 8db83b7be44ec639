#!/usr/bin/env python3
"""Document 01's run book and line program, written from 01's words alone and not from the Rattle code, to say what `line` must print.

Reads lines from standard input, prints the answers. The stored runs of the line programs are made with it (model/make); it is slow and simple on purpose.
Where 01 is open, docs/DECISIONS.md says what is taken.
"""
import sys

PAGE = 4096
PAGES = 262144                  # pages of an object
END = PAGES * PAGE              # its bytes
NAMES = 32
SLOTS = 512                     # ranges
REACH = 1048576                 # no range is extended past this offset + length
JOIN = 16                       # "page - its last page is at most 16"


class Refused(Exception):
    """A call turned down, with its number of the table."""


class Backing:
    """At each index nothing, or a frame number and 4,096 bytes."""

    def __init__(self):
        self.cells = {}


class Range:
    """Pages start up to start + length of an object; page p is the backing's entry at offset + (p - start)."""

    def __init__(self, name, start, length, offset, backing):
        self.name, self.start, self.length, self.offset, self.backing = name, start, length, offset, backing

    def end(self):
        return self.start + self.length

    def index(self, page):
        return self.offset + (page - self.start)

    def part(self, a, b):
        """Pages a up to b of it: cuts keep backing and indexes."""
        return Range(self.name, a, b - a, self.index(a), self.backing)


class Book:
    def __init__(self, frames):
        self.frames, self.live, self.ranges, self.spare = frames, set(), [], []

    # ---- what is asked of the book
    def covering(self, name, page):
        for r in self.ranges:
            if r.name == name and r.start <= page < r.end():
                return r
        return None

    def meeting(self, name, a, b):
        """The ranges that overlap pages a up to b, in rising order. No page, no range."""
        return [r for r in self.ranges if r.name == name and max(r.start, a) < min(r.end(), b)]

    def cell(self, name, page):
        r = self.covering(name, page)
        return None if r is None else r.backing.cells.get(r.index(page))

    def is_shared(self, r):
        """A backing held by two or more ranges is shared."""
        return sum(1 for q in self.ranges if q.backing is r.backing) >= 2

    def state(self, name, page):
        """0 absent, 1 private, 2 shared."""
        if self.cell(name, page) is None:
            return 0
        return 2 if self.is_shared(self.covering(name, page)) else 1

    def used(self):
        return {cell[0] for r in self.ranges for cell in r.backing.cells.values()}

    def free(self):
        used = self.used()
        return [f for f in range(self.frames) if f not in used]

    # ---- changes of the table
    def without(self, name, a, b):
        """The ranges with pages a up to b of the object cut away."""
        kept = []
        for r in self.ranges:
            if r.name != name or r.end() <= a or b <= r.start:
                kept.append(r)
                continue
            if r.start < a:
                kept.append(r.part(r.start, a))
            if b < r.end():
                kept.append(r.part(b, r.end()))
        return kept

    def carve(self, name, a, b):
        """Leaves pages a up to b uncovered."""
        self.ranges = self.without(name, a, b)
        self.trim()

    def put(self, r):
        """A range over its span, in the place of what stood there."""
        self.ranges = sorted(self.without(r.name, r.start, r.end()) + [r], key=lambda q: (q.name, q.start))
        self.trim()

    def trim(self):
        """Entries in no holder's window go at once."""
        for b in {r.backing for r in self.ranges}:
            windows = [(r.offset, r.offset + r.length) for r in self.ranges if r.backing is b]
            b.cells = {i: c for i, c in b.cells.items() if any(lo <= i < hi for lo, hi in windows)}

    # ---- page steps inside a call
    def take(self):
        """The highest frame left of those free at entry."""
        return self.spare.pop()

    def cut_out(self, name, page, cell):
        """The page as a range of its own with a new backing and offset 0."""
        b = Backing()
        b.cells[0] = cell
        self.put(Range(name, page, 1, 0, b))

    def add_page(self, name, page):
        cell = (self.take(), bytearray(PAGE))
        r = self.covering(name, page)
        if r is not None:
            if self.is_shared(r):
                self.cut_out(name, page, cell)
            else:
                r.backing.cells[r.index(page)] = cell
            return cell[0]
        before = [q for q in self.ranges if q.name == name and q.end() <= page]
        prev = before[-1] if before else None
        if prev and not self.is_shared(prev) and page - (prev.end() - 1) <= JOIN and prev.index(page) + 1 <= REACH:
            prev.length = page + 1 - prev.start
            prev.backing.cells[prev.index(page)] = cell
        else:
            self.cut_out(name, page, cell)
        return cell[0]

    def make_writable(self, name, page):
        state = self.state(name, page)
        if state == 0:
            self.add_page(name, page)
        elif state == 2:
            self.cut_out(name, page, (self.take(), bytearray(self.cell(name, page)[1])))
        return self.cell(name, page)[1]

    # ---- bytes
    def read_bytes(self, name, offset, length):
        out = bytearray()
        for page, a, b in pieces(offset, length):
            cell = self.cell(name, page)
            out += cell[1][a:b] if cell else bytes(b - a)
        return bytes(out)

    def write_bytes(self, name, offset, data):
        done = 0
        for page, a, b in pieces(offset, len(data)):
            self.make_writable(name, page)[a:b] = data[done:done + b - a]
            done += b - a

    def clear_bytes(self, name, offset, length):
        """In present pages only."""
        for page, a, b in pieces(offset, length):
            if self.state(name, page):
                self.make_writable(name, page)[a:b] = bytes(b - a)

    def share_pages(self, source, p, dest, q, n):
        """For each source range met, one range of its backing and indexes; uncovered source pages are skipped."""
        for r in self.meeting(source, p, p + n):
            a, b = max(r.start, p), min(r.end(), p + n)
            part = r.part(a, b)
            part.name, part.start = dest, a - p + q
            self.put(part)

    # ---- frames and range slots that a call needs, and the table of refusals
    def objects(self, *names):
        if any(x >= NAMES or x not in self.live for x in names):
            raise Refused(3)

    @staticmethod
    def within(*ends):
        if any(e > END for e in ends):
            raise Refused(6)

    def needs(self, frames, slots):
        if len(self.free()) < frames:
            raise Refused(8)
        if SLOTS - len(self.ranges) < slots:
            raise Refused(9)
        self.spare = self.free()

    def settled(self, name, offset, length):
        """How many touched pages are absent or shared. Past the number of free frames more do not matter: the call is refused."""
        free, n = len(self.free()), 0
        for page, _, _ in pieces(offset, length):
            n += self.state(name, page) != 1
            if n > free:
                break
        return n

    def partial(self, name, offset, length, counts):
        """How many partly touched pages count: all, if there are whole pages too, else those in one of the states `counts`."""
        parts, (first, last) = edges(offset, length), whole(offset, length)
        return len(parts) if first < last else sum(1 for page in parts if self.state(name, page) in counts)

    # ---- the calls; each answers the bytes behind 00
    def new_object(self, name):
        if name >= NAMES:
            raise Refused(3)
        if name in self.live:
            raise Refused(4)
        self.live.add(name)
        return b''

    def drop_object(self, name):
        self.objects(name)
        self.live.remove(name)
        self.carve(name, 0, PAGES)
        return b''

    def write(self, name, offset, data):
        self.objects(name)
        self.within(offset + len(data))
        n = self.settled(name, offset, len(data))
        self.needs(n, 2 * n)
        self.write_bytes(name, offset, data)
        return b''

    def read(self, name, offset, length):
        self.objects(name)
        self.within(offset + length)
        return self.read_bytes(name, offset, length)

    def add(self, name, page):
        self.objects(name)
        self.within((page + 1) * PAGE)
        self.needs(1, 2)
        return self.add_page(name, page).to_bytes(2, 'big')

    def look_up(self, name, page):
        self.objects(name)
        self.within((page + 1) * PAGE)
        return bytes([self.state(name, page)])

    def copy(self, source, at, dest, to, length):
        self.objects(source, dest)
        if source == dest:
            raise Refused(5)
        self.within(at + length, to + length)
        if at % PAGE != to % PAGE:
            n = self.settled(dest, to, length)
            self.needs(n, 2 * n)
            self.write_bytes(dest, to, self.read_bytes(source, at, length))
            return b''
        first, last = whole(at, length)
        n = self.partial(dest, to, length, (0, 2))
        self.needs(n, 2 * n + 2 * len(self.meeting(source, first, last)))
        if first >= last:
            self.write_bytes(dest, to, self.read_bytes(source, at, length))
            return b''
        head, tail = first * PAGE - at, at + length - last * PAGE
        self.write_bytes(dest, to, self.read_bytes(source, at, head))
        self.share_pages(source, first, dest, (to + head) // PAGE, last - first)
        self.write_bytes(dest, to + length - tail, self.read_bytes(source, last * PAGE, tail))
        return b''

    def shadow(self, source, at, dest, to, length):
        self.objects(source, dest)
        if source == dest:
            raise Refused(5)
        self.within(at + length, to + length)
        if at % PAGE or length % PAGE:
            raise Refused(7)
        p, n = at // PAGE, length // PAGE
        self.needs(0, 2 * len(self.meeting(source, p, p + n)))
        self.share_pages(source, p, dest, to // PAGE, n)
        return b''

    def zero(self, name, offset, length):
        self.objects(name)
        self.within(offset + length)
        first, last = whole(offset, length)
        n = self.partial(name, offset, length, (2,))
        self.needs(n, 2 * n + (first < last))
        if first >= last:
            self.clear_bytes(name, offset, length)
            return b''
        self.clear_bytes(name, offset, first * PAGE - offset)
        self.carve(name, first, last)
        self.clear_bytes(name, last * PAGE, offset + length - last * PAGE)
        return b''

    def counts(self):
        return len(self.used()).to_bytes(2, 'big') + len(self.ranges).to_bytes(2, 'big')


# ---- spans of bytes
def pieces(offset, length):
    """The span page by page: the page, and the bytes of it from a up to b."""
    at, end = offset, offset + length
    while at < end:
        page = at // PAGE
        stop = min(end, (page + 1) * PAGE)
        yield page, at - page * PAGE, stop - page * PAGE
        at = stop


def whole(offset, length):
    """The first whole page and the page behind the last one; no whole page where the first is not below the second."""
    return -(-offset // PAGE), (offset + length) // PAGE


def edges(offset, length):
    """The partly touched pages."""
    end = offset + length
    found = {offset // PAGE} if offset % PAGE else set()
    found |= {end // PAGE} if end % PAGE else set()
    return sorted(found) if length else []


# ---- lines: a one-byte code, then fields, high byte first. None: the rest of the line, which is the data of a write.
CALLS = {
    0x01: ('new_object', (1,)), 0x02: ('drop_object', (1,)), 0x03: ('write', (1, 4, None)), 0x04: ('read', (1, 4, 1)),
    0x05: ('add', (1, 4)), 0x06: ('look_up', (1, 4)), 0x07: ('copy', (1, 4, 1, 4, 4)), 0x08: ('shadow', (1, 4, 1, 4, 4)),
    0x09: ('zero', (1, 4, 4)), 0x0A: ('counts', ()),
}
DIGITS = b'0123456789abcdefABCDEF'


def parsed(line):
    """The call's name and its arguments, or None where the line is not one."""
    if not line or len(line) > 512 or len(line) % 2 or any(c not in DIGITS for c in line):
        return None
    code, rest = int(line[:2], 16), bytes.fromhex(line[2:].decode('ascii'))
    if code not in CALLS:
        return None
    call, widths = CALLS[code]
    args = []
    for width in widths:
        if width is None:
            field, rest = rest, b''
            args.append(field)
            continue
        if len(rest) < width:
            return None
        args.append(int.from_bytes(rest[:width], 'big'))
        rest = rest[width:]
    return None if rest else (call, args)


def answer(book, line):
    call = parsed(line)
    if call is None:
        return 'FF'
    try:
        return '00' + getattr(book, call[0])(*call[1]).hex().upper()
    except Refused as r:
        return '%02X' % r.args[0]


def lines_of(text):
    """Lines end in a line feed; the last one's may be missing."""
    found = text.split(b'\n')
    return found[:-1] if found[-1] == b'' else found


def answers(text, frames=16):
    book = Book(frames)
    return ''.join(answer(book, line) + '\n' for line in lines_of(text))


if __name__ == '__main__':
    sys.stdout.write(answers(sys.stdin.buffer.read()))
