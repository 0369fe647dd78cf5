#!/usr/bin/env python3
"""What the log's calls come to, by a model of where pages lie: no tag, no byte, no proof. The expected lines of crates/measures/stdout
and crates/life_trials/stdout were derived by it. With `none` for a mode no block begins with a summary, with `plain` those alone that
are allocated without a garbage collection."""
import sys

MASK = (1 << 64) - 1


class Layout:
    """Blocks, the keys that are committed in each, and the calls that were made."""

    def __init__(self, pages, blocks, page_bytes, reserve, mode):
        self.pages, self.blocks, self.page_bytes, self.reserve, self.mode = pages, blocks, page_bytes, reserve, mode
        self.place = {}
        self.committed = [set() for _ in range(blocks)]
        self.seq, self.used = [0] * blocks, [0] * blocks
        self.newest, self.opened = 0, None  # a mount opens no block
        self.reads = self.programs = self.erases = self.summaries = 0

    def enter(self, key, block):
        """The current page of a key is in this block from now on."""
        self.drop(key)
        self.place[key] = block
        self.committed[block].add(key)

    def drop(self, key):
        if key in self.place:
            self.committed[self.place.pop(key)].discard(key)

    def found(self, block, keys):
        """A block that was written before the first call."""
        self.newest += 1
        self.seq[block], self.used[block] = self.newest, len(keys)
        for key in keys:
            self.enter(key, block)

    def free(self):
        return [block for block in range(self.blocks) if block != self.opened and not self.committed[block]]

    def allocate(self, count, summarizes):
        before = self.opened
        self.opened = self.free()[0]
        self.newest, self.erases = self.newest + 1, self.erases + 1
        self.seq[self.opened], self.used[self.opened] = self.newest, 0
        if summarizes and before is not None and self.committed[before] and self.used[before] >= self.pages // 4:
            size = -(-32 * (1 + len(self.committed[before])) // self.page_bytes)
            if size <= self.pages - count:
                self.used[self.opened], self.programs, self.summaries = size, self.programs + size, self.summaries + 1

    def make_room(self, count):
        if self.opened is not None and self.pages - self.used[self.opened] >= count:
            return
        empty = len(self.free()) + (self.opened is not None and not self.committed[self.opened])
        if empty > 1 + self.reserve:
            return self.allocate(count, self.mode != "none")
        victim = min((b for b in range(self.blocks) if self.committed[b]), key=lambda b: (len(self.committed[b]), self.seq[b]))
        moved = list(self.committed[victim])
        assert len(moved) + count <= self.pages
        self.allocate(len(moved) + count, self.mode == "all")
        self.reads, self.programs = self.reads + len(moved), self.programs + len(moved)
        self.used[self.opened] += len(moved)
        for key in moved:
            self.enter(key, self.opened)

    def commit(self, keys, dropped=()):
        self.make_room(len(keys))
        self.used[self.opened] += len(keys)
        self.programs += len(keys)
        for key in keys:
            self.enter(key, self.opened)
        for key in dropped:
            self.drop(key)

    def calls(self):
        return self.reads + self.programs + self.erases


class Pcg32:
    def __init__(self, state, stream):
        self.increment = (stream << 1 | 1) & MASK
        self.state = (state + self.increment) & MASK
        self.step()

    def step(self):
        self.state = (self.state * 6364136223846793005 + self.increment) & MASK

    def draw(self):
        old = self.state
        self.step()
        word, turn = ((old >> 18) ^ old) >> 27 & 0xFFFFFFFF, old >> 59
        return (word >> turn | word << (-turn & 31)) & 0xFFFFFFFF


def measure(written, mode):
    """100 commits of 16 drawn keys, where so many blocks were written before."""
    pages, blocks, reserve, group = 64, 64, 3, 16
    keys = pages * blocks // 2
    layout, random = Layout(pages, blocks, 512, reserve, mode), Pcg32(1, 54)
    for block in range(written):
        first = range(block * pages, (block + 1) * pages)
        layout.found(block, [place % keys if block < blocks // 2 else random.draw() % keys for place in first])
    random = Pcg32(42, 54)
    for _ in range(100):
        layout.commit(list(dict.fromkeys(random.draw() % keys for _ in range(group))))
    return f"{layout.reads} reads, {layout.programs} programs, {layout.erases} erases; {layout.summaries} summaries"


def data(first, end):
    return [f"page {page}" for page in range(first, end)]


def two_files():
    """A file of one page and a sync; another of 138 pages, five at a time, until the volume is full; its first page twelve times."""
    yield ["slot 0", "root", "header 0", "page of 0"], []
    yield ["slot 1", "root", "header"] + data(0, 5), []
    for first in range(5, 135, 5):
        yield ["header"] + data(first, first + 5), []
    yield ["header"] + data(135, 138) + data(0, 1), []
    for _ in range(11):
        yield data(0, 1), []


def one_file():
    """A file of 141 pages, five at a time, until the volume is full; its first page forty times."""
    yield ["slot", "root", "header"] + data(0, 5), []
    for first in range(5, 135, 5):
        yield ["header"] + data(first, first + 5), []
    yield ["header"] + data(135, 141) + data(0, 1), []
    for _ in range(39):
        yield data(0, 1), []


def names():
    """71 directories, of which the first is removed: three make seven pages, since each writes the root's header."""
    for first in range(0, 71, 3):
        made = range(first, min(first + 3, 71))
        dropped = ["slot 0", "header 0"] if made.stop == 71 else []
        yield ["root"] + [f"{kind} {name}" for name in made for kind in ("slot", "header")], dropped


def session(commits, other_reads, mode):
    """How many calls a session on eight blocks of 32 pages has: the mount reads 72 tags and the root's header."""
    layout = Layout(32, 8, 512, 1, mode)
    layout.found(0, ["root"])
    for keys, dropped in commits:
        layout.commit(keys, dropped)
    calls = 72 + 1 + other_reads + layout.calls()
    return f"{calls} calls: {16 * calls} cuts, {4 * calls} failures; {layout.summaries} summaries"


mode = sys.argv[1] if len(sys.argv) > 1 else "all"
print("measures commits:", measure(32, mode))
print("measures collections:", measure(60, mode))
print("life_trials two files:", session(two_files(), 1, mode))
print("life_trials one file:", session(one_file(), 1, mode))
print("life_trials names:", session(names(), 2, mode))
