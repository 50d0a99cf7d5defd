"""The rules of the tree, written anew in Python from the rules alone, and a world that carries processes out turn by turn.

Each kind of process is a generator: it yields what it does next, as ("get", 5), and is sent what it saw. Nothing here was made from the
program's code, so that where both print the same events, the rules have been read twice.
"""

import collections

MOST_PAIRS, FEW_PAIRS, MOST_LEVELS = 14, 7, 12


class Page(collections.namedtuple("Page", "kind level low high right pairs tops")):
    """A page by its values. What its kind has not stays at its default; a `high` of 0 is no bound, a `right` of 0 no link."""

    __slots__ = ()

    def __new__(cls, kind, level=0, low=0, high=0, right=0, pairs=(), tops=()):
        return super().__new__(cls, kind, level, low, high, right, tuple(pairs), tuple(tops))

    def having(self, **others):
        return Page(**{**self._asdict(), **others})

    def covers(self, key):
        return self.low <= key and (self.high == 0 or key < self.high)

    def listed(self, key):
        return dict(self.pairs).get(key)

    def child(self, key):
        return [page for low, page in self.pairs if low <= key][-1]

    def is_alone(self):
        return self.low == 0 and self.high == 0

    def is_thin(self):
        return len(self.pairs) < FEW_PAIRS

    def text(self):
        """What `replay --pages` prints of it."""
        covers = f"{self.low} {self.high} {self.right}"
        head = {"anchor": f"anchor {' '.join(map(str, self.tops))}", "leaf": f"leaf {covers}", "inner": f"inner {self.level} {covers}",
                "dead": f"dead {self.level} {self.low} {self.right}"}[self.kind]  # fmt: skip
        return " ".join([head, *(f"{key} {word}" for key, word in self.pairs)])

    def hint(self, level):
        """The hint that this page is thin, for the level above it."""
        return f" thin {level} {self.low}" if self.is_thin() and not self.is_alone() else ""


class Refused(Exception):
    """The store had no page or frame, and the writer has opened its page."""


def step(page, key):
    """Where a page leads whoever looks for the key: again, to the right with a page, or here."""
    if page.kind == "dead":
        return ("right", page.right) if page.right else ("again", None)
    if page.kind == "anchor" or key < page.low:
        return "again", None
    return ("here", None) if page.covers(key) else ("right", page.right)


# Ways through the tree.


def search(key, first=None):
    """Comes to the leaf that covers the key. A page in mind may be where it begins."""
    at = first
    while True:
        if at is None:
            at = (yield "get", 0).tops[-1]
        page = yield "get", at
        if page.kind == "anchor":
            at = page.tops[-1]
            continue
        leads, to = step(page, key)
        if leads == "here" and page.level == 0:
            return page
        at = page.child(key) if leads == "here" else to


def approach(key, level, first=None, noted=None):
    """Latches the page of the level that covers the key, and gives its number and what it is. With `first` it begins by latching that
    page. Each anchor is shown to whoever runs it, by ("looked", anchor). What it goes down from is noted by level.
    """
    at, latches = first, first is not None
    while True:
        if at is None:
            anchor = yield "get", 0
            yield "looked", anchor
            at, latches = anchor.tops[-1], len(anchor.tops) - 1 == level
        holds = (yield "latch", at) if latches else False
        page = yield "get", at
        leads, to = step(page, key)
        if latches:
            if holds and leads == "here":
                return at, page
            if holds:
                yield "open", at
            if leads != "here":
                at = to
        elif leads == "here":
            if noted is not None:
                noted[page.level] = at
            at, latches = page.child(key), page.level - 1 == level
        else:
            at, latches = to, page.level == level


def whatever_the_anchor(way):
    """Runs an approach for which every anchor will do."""
    sent = None
    while True:
        try:
            does = way.send(sent)
        except StopIteration as ended:
            return ended.value
        sent = None if does[0] == "looked" else (yield does)


# What writers do with the page that they hold.


def enter(at, page, key, value):
    """Enters a pair and opens the page. Gives the separator where the page was split."""
    pairs = tuple(sorted((*page.pairs, (key, value))))
    if len(pairs) <= MOST_PAIRS:
        refused = (yield "put", at, page.having(pairs=pairs), True) == "refused"
        yield "open", at
        if refused:
            raise Refused
        return None
    new = yield ("take",)
    if new == "refused":
        yield "open", at
        raise Refused
    lower, upper = pairs[:8], pairs[8:]
    separator = upper[0][0]
    yield "put", new, page.having(low=separator, pairs=upper), False
    yield "put", at, page.having(high=separator, right=new, pairs=lower), False
    yield "open", new
    yield "open", at
    return separator


def insert_there(key, value, noted=None):
    """An insertion between its begin and its end: the reply, and the separator of a split."""
    return (yield from enter_there(key, value, noted, replaces=False))


def put_there(key, value, noted=None):
    """A put between its begin and its end: the same."""
    return (yield from enter_there(key, value, noted, replaces=True))


def enter_there(key, value, noted, replaces):
    """Enters a pair where the key is not there. A value that is there gives way, or stays."""
    at, page = yield from whatever_the_anchor(approach(key, 0, noted=noted))
    there = page.listed(key)
    if there is not None and replaces:
        pairs = [(low, value if low == key else old) for low, old in page.pairs]
        refused = (yield "put", at, page.having(pairs=pairs), True) == "refused"
        yield "open", at
        return "noroom" if refused else f"replaced {there}", None
    if there is not None:
        yield "open", at
        return f"present {there}", None
    try:
        return "inserted", (yield from enter(at, page, key, value))
    except Refused:
        return "noroom", None


def grow(level):
    """Puts a new top level above so many, unless the anchor has another number by now. Whether there was no room."""
    while not (yield "latch", 0):
        pass
    anchor = yield "get", 0
    if len(anchor.tops) != level:
        yield "open", 0
        return False
    new = yield ("take",)
    if new == "refused":
        yield "open", 0
        return True
    yield "put", new, Page("inner", level, pairs=((0, anchor.tops[level - 1]),)), False
    yield "put", 0, anchor.having(tops=(*anchor.tops, new)), False
    yield "open", new
    yield "open", 0
    return False


def parent(level, key, first, noted):
    """Comes to the page of the level that covers the key, and holds it: None, and the page. Or what the post answers without one; or
    "again" after a new top level was put.
    """
    way, sent = approach(key, level, first=first, noted=noted), None
    while True:
        try:
            does = way.send(sent)
        except StopIteration as ended:
            return None, ended.value
        if does[0] != "looked":
            sent = yield does
            continue
        tops, sent = len(does[1].tops), None
        if tops < level:
            return "stale", None
        if tops == level == MOST_LEVELS:
            return "tootall", None
        if tops == level:
            return "noroom" if (yield from grow(level)) else "again", None


def post_there(level, key, first=None, noted=None):
    """A post between its begin and its end: the answer, and the separator where the parent was split."""
    while True:
        answer, found = yield from parent(level, key, first, noted)
        first = None
        if answer == "again":
            continue
        if answer:
            return answer, None
        at, page = found
        if page.listed(key) is not None:
            yield "open", at
            return "already", None
        child = page.child(key)
        while True:
            below = yield "get", child
            if below.kind == "dead" or key < below.low:
                child = page.child(key)
            elif below.covers(key):
                break
            else:
                child = below.right
        if below.low != key:
            yield "open", at
            return "stale", None
        try:
            return "done", (yield from enter(at, page, key, child))
        except Refused:
            return "noroom", None


# The kinds of process, each from its begin to its end.


def way_from(near):
    """The page at which a way begins that has that page in mind, if it is open."""
    return near if near is not None and (yield "probe", near) else None


def find(key, near=None):
    yield ("begin",)
    first = yield from way_from(near)
    page = yield from search(key, first)
    yield ("end",)
    there = page.listed(key)
    return "absent" if there is None else f"found {there}"


def part(key, near=None):
    yield ("begin",)
    first = yield from way_from(near)
    page = yield from search(key, first)
    yield ("end",)
    rows = "".join(f" {low}={value}" for low, value in page.pairs if low >= key)
    return f"rows{rows}" + (f" more {page.high}" if page.high else " end")


def part_down(key):
    yield ("begin",)
    page = yield from search(key, None)
    yield ("end",)
    rows = "".join(f" {low}={value}" for low, value in reversed(page.pairs) if low <= key)
    return f"rows{rows}" + (f" more {page.low - 1}" if page.low else " end")


def insert(key, value):
    return (yield from leaving_the_post(insert_there(key, value)))


def put(key, value):
    return (yield from leaving_the_post(put_there(key, value)))


def insertpost(key, value):
    noted = {}
    return (yield from posting(insert_there(key, value, noted), noted))


def putpost(key, value):
    noted = {}
    return (yield from posting(put_there(key, value, noted), noted))


def leaving_the_post(there):
    """A write that enters a pair, and leaves the post of what it has split."""
    yield ("begin",)
    reply, separator = yield from there
    yield ("end",)
    return reply if separator is None else f"{reply} post 1 {separator}"


def posting(there, noted):
    """A write that enters a pair, and posts what it has split."""
    yield ("begin",)
    reply, separator = yield from there
    if separator is None:
        yield ("end",)
        return reply
    level = 1
    while True:
        answer, more = yield from post_there(level, separator, first=noted.get(level), noted=noted)
        if more is None:
            break
        level, separator = level + 1, more
    yield ("end",)
    return f"{reply} {answer}" + (f" post {level} {separator}" if answer == "noroom" else "")


def write(key, decide):
    """A deletion or a change: `decide` gives the reply, and the pairs that the leaf is to have then, or None."""
    yield ("begin",)
    at, page = yield from whatever_the_anchor(approach(key, 0))
    reply, pairs = decide(page.listed(key), page.pairs)
    left = None
    if pairs is not None:
        left = page.having(pairs=pairs)
        if (yield "put", at, left, True) == "refused":
            reply, left = "noroom", None
    yield "open", at
    yield ("end",)
    return reply, left


def delete(key):
    def decide(there, pairs):
        return ("absent", None) if there is None else (f"deleted {there}", [it for it in pairs if it[0] != key])

    reply, left = yield from write(key, decide)
    return reply + (left.hint(1) if left else "")


def change(key, old, new):
    def decide(there, pairs):
        if there != old:
            return ("absent" if there is None else f"differs {there}"), None
        return "changed", [(low, new if low == key else value) for low, value in pairs]

    return (yield from write(key, decide))[0]


def post(level, key):
    yield ("begin",)
    answer, separator = yield from post_there(level, key)
    yield ("end",)
    return answer if separator is None else f"{answer} post {level + 1} {separator}"


def compress(level, key):
    yield ("begin",)
    way, sent = approach(key, level), None
    while True:
        try:
            does = way.send(sent)
        except StopIteration as ended:
            at, page = ended.value
            break
        if does[0] == "looked" and len(does[1].tops) <= level:
            yield ("end",)
            return "alone"
        sent = None if does[0] == "looked" else (yield does)
    if len(page.pairs) == 1:
        yield "open", at
        yield ("end",)
        return "alone"
    place = min(len([low for low, _ in page.pairs if low <= key]) - 1, len(page.pairs) - 2)
    left, right = page.pairs[place][1], page.pairs[place + 1][1]
    while not (yield "latch", left):
        pass
    lower = yield "get", left
    if lower.right != right:
        yield "open", left
        yield "open", at
        yield ("end",)
        return f"unposted post {level} {lower.high}"
    while not (yield "latch", right):
        pass
    upper = yield "get", right
    both = lower.pairs + upper.pairs
    if len(both) <= MOST_PAIRS:
        merged = lower.having(high=upper.high, right=upper.right, pairs=both)
        parent = page.having(pairs=page.pairs[: place + 1] + page.pairs[place + 2 :])
        puts = [(left, merged), (at, parent), (right, Page("dead", upper.level, upper.low, right=left))]
    elif lower.is_thin() or upper.is_thin():
        half = (len(both) + 1) // 2
        separator = both[half][0]
        parent = page.having(pairs=(*page.pairs[: place + 1], (separator, right), *page.pairs[place + 2 :]))
        puts = [(left, lower.having(high=separator, pairs=both[:half])), (at, parent), (right, upper.having(low=separator, pairs=both[half:]))]
        if half <= len(lower.pairs):
            # The page that gains is put first.
            puts.reverse()
    else:
        puts = []
    answer = "enough"
    for number, (which, to) in enumerate(puts):
        if (yield "put", which, to, number == 0) == "refused":
            answer = "noroom"
            break
    else:
        if len(both) <= MOST_PAIRS:
            yield "retire", right
            yield "open", left
            yield "open", at
            yield ("end",)
            return "merged" + (parent.hint(level + 1) or merged.hint(level))
        answer = "evened" if puts else "enough"
    yield "open", right
    yield "open", left
    yield "open", at
    yield ("end",)
    return answer


def lower():
    yield ("begin",)
    anchor = yield "get", 0
    if len(anchor.tops) == 1:
        yield ("end",)
        return "needed"
    while not (yield "latch", 0):
        pass
    anchor = yield "get", 0
    if len(anchor.tops) == 1:
        yield "open", 0
        yield ("end",)
        return "needed"
    top = anchor.tops[-1]
    while not (yield "latch", top):
        pass
    page = yield "get", top
    answer = "needed"
    if len(page.pairs) == 1 and not page.high and not page.right:
        if (yield "put", 0, anchor.having(tops=anchor.tops[:-1]), True) != "refused":
            yield "put", top, Page("dead", page.level), False
            yield "retire", top
            yield "open", 0
            yield ("end",)
            return "lowered"
        answer = "noroom"
    yield "open", top
    yield "open", 0
    yield ("end",)
    return answer


def reclaim(page):
    retired, started, own = yield "see", page
    if retired is None:
        return "kept"
    for other in range(1, started + 1):
        if other != own and (yield "look", other, retired):
            return "kept"
    return "released" if (yield "release", page, retired) else "kept"


KINDS = {it.__name__: it for it in (find, part, insert, insertpost, put, putpost, delete, change, post, compress, lower, reclaim)}
KINDS |= {"findnear": find, "partnear": part, "partdown": part_down}


class Process:
    def __init__(self, way):
        self.way, self.next, self.answer, self.begun, self.ended = way, None, None, None, False
        self.told(None)

    def told(self, seen):
        try:
            self.next = self.way.send(seen)
        except StopIteration as ended:
            self.next, self.answer = None, ended.value


class World:
    """Pages, their owners and processes. An owner is "free", "open", the number of a process, or ("retired", when)."""

    def __init__(self, pages):
        self.pages, self.owners = [None] * pages, ["free"] * pages
        self.pages[:2] = Page("anchor", tops=(1,)), Page("leaf")
        self.owners[:2] = "open", "open"
        self.time, self.processes, self.said = 0, [], []

    def start(self, line):
        word, *numbers = line.split()
        self.processes.append(Process(KINDS[word](*map(int, numbers))))

    def run(self, number, turns):
        for _ in range(turns):
            if self.processes[number - 1].answer is not None:
                return
            self.turn(number)

    def turn(self, number, page=None, refuse=False):
        """A turn of the process: a named page is the one that it is to take, and a refusal is of what it reserves."""
        self.time += 1
        process = self.processes[number - 1]
        does = process.next
        if process.answer is not None:
            self.say(number, "miss")
        elif refuse:
            self.say(number, "miss")
            if does[0] == "take" or (does[0] == "put" and does[3]):
                self.tell(number, "refused")
        elif does[0] == "take":
            self.take(number, page)
        else:
            self.act(number, process, does)

    def take(self, number, page):
        free = [it for it, owner in enumerate(self.owners) if owner == "free"]
        if not free:
            self.say(number, "miss")
            self.tell(number, "refused")
            return
        page = free[0] if page is None else page
        if page not in free:
            self.say(number, "miss")
            return
        self.owners[page] = number
        self.say(number, f"take {page}")
        self.tell(number, page)

    def act(self, number, process, does):
        word, page = does[0], does[1] if len(does) > 1 else None
        seen, shown = None, f"{word} {page}" if page is not None else word
        if word == "begin":
            process.begun = self.time
        elif word == "end":
            process.ended = True
            assert number not in self.owners, "a process ends and holds a page"
        elif word == "get":
            assert self.owners[page] != "free", "a released page is read"
            seen = self.pages[page]
        elif word in ("put", "open", "retire"):
            assert self.owners[page] == number, f"{word} of a page of another"
            if word == "put":
                self.pages[page], seen = does[2], "put"
            else:
                self.owners[page] = "open" if word == "open" else ("retired", self.time)
        elif word == "latch":
            seen = self.owners[page] == "open"
            if seen:
                self.owners[page] = number
        elif word == "see":
            owner = self.owners[page]
            seen = owner[1] if isinstance(owner, tuple) else None, len(self.processes), number
        elif word == "probe":
            seen, shown = self.owners[page] == "open", f"see {page}"
        elif word == "look":
            other = self.processes[page - 1]
            seen = other.begun is not None and not other.ended and other.begun < does[2]
        elif word == "release":
            seen = self.owners[page] == ("retired", does[2])
            if seen:
                self.owners[page] = "free"
        self.say(number, "miss" if word in ("latch", "release") and not seen else shown)
        if word == "put":
            self.say(number, f"page {page} {does[2].text()}")
        self.tell(number, seen)

    def tell(self, number, seen):
        process = self.processes[number - 1]
        process.told(seen)
        if process.answer is not None:
            self.say(number, f"answer {process.answer}")

    def say(self, number, what):
        self.said.append(f"{number} {what}")
