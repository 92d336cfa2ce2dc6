"""Reads indexes (docs/INDEX.md), and says of a line that isn't in the format where, and what was expected there."""
from dataclasses import dataclass, field

from indexes import MARKS, Index, said
from reading import Unreadable, lines, placed_words
from versions import Numbers, SemVer

ENTRIES = ("needs", "limits", "favored", "locked")
REASONED = ("excluded", "unknown")
# The words that are no package's name: in a union, in a condition, and behind `limits`.
NO_NAMES = {"union": {*ENTRIES, "|", "if"}, "condition": {*ENTRIES, "and", "or", "if"}, "limits": {*ENTRIES}}
MOST_WORDS = 1 << 21  # of a line
# Behind what some words stand alone.
BEHIND = {"semver": "`request`", **dict.fromkeys(REASONED, "a version")}


@dataclass
class Fault:
    """Why a line can't be read."""

    number: int
    column: int
    why: str
    line: bytes


class Words:
    """The words of the line of this number, and how many of them were read."""

    def __init__(self, number, line):
        self.number, self.placed, self.place, self.end = number, placed_words(line), 0, len(line.rstrip(b" ")) + 1

    def next(self):
        """The next word; none at the end of the line."""
        return self.placed[self.place][1] if self.place < len(self.placed) else None

    def column(self):
        return self.placed[self.place][0] if self.place < len(self.placed) else self.end

    def take(self):
        self.place += 1
        return self.placed[self.place - 1][1]

    def skips(self, word):
        """Whether the next word is this one, which is read then."""
        is_next = self.next() == word
        self.place += is_next
        return is_next

    def rest(self):
        """The words up to the end of the line, which are read."""
        while self.next() is not None:
            yield self.take()

    def value(self, kind, text, what, offset=0):
        """The version that this text is, so far behind the beginning of the next word."""
        try:
            return kind.read(text, what)
        except Unreadable as why:
            raise Unreadable(str(why), self.column() + offset) from None

    def end_in(self, most):
        """Sees to it that the line ends behind its first so many words, if not before."""
        if len(self.placed) > most:
            self.place = most
            raise self.fault(f"the end of the line, which has at most {most} words")

    def fault(self, expected):
        """That something else is expected in place of the next word."""
        word = self.next()
        there = "the line ends" if word is None else f"there is `{word}`"
        hint = f", which stands directly behind {BEHIND[word]} alone" if word in BEHIND else ""
        return Unreadable(f"expected {expected}, and {there}{hint}", self.column())


@dataclass
class Listing:
    """An index as a text has it: what its lines say, where, and which of them can't be read."""

    first: int  # the number of its first line
    faults: list = field(default_factory=list)
    wanted: list = field(default_factory=list)
    asks: dict = field(default_factory=dict)
    marked: dict = field(default_factory=lambda: {word: set() for word in MARKS})
    numbers: dict = field(default_factory=dict)  # for each version the number of its line; for none the request's
    whys: dict = field(default_factory=dict)  # for each version that is excluded or unknown the reason
    sets: list = field(default_factory=list)  # each range, with the number of its line, and its column
    kind: type = Numbers  # how its versions are written

    def index(self):
        """The index that its readable lines say."""
        return Index(self.wanted, self.asks, self.marked, self.kind)

    def read(self, words):
        """Reads a line."""
        is_request = words.skips("request")
        if is_request:
            self.numbers[None] = words.number
            self.kind = SemVer if words.skips("semver") else Numbers
        words.end_in(MOST_WORDS)
        if is_request:
            self.wanted += self.entries(words, "needs")["needs"]
        elif self.faults or self.numbers:
            self.version(words)
        else:
            raise words.fault("`request`, with which an index begins")

    def version(self, words):
        name, column = words.take(), words.column()
        if words.next() is None:
            raise words.fault(self.kind.VERSION)
        version = name, words.value(self.kind, words.next(), "version")
        words.take()
        if words.next() in REASONED:
            marks, entries = [words.take()], {}
            self.whys[version] = " ".join(words.rest()) or "no reason is given"
        else:
            entries = self.entries(words, *ENTRIES)
            marks = [mark for mark in ("favored", "locked") if entries[mark]]
        if version in self.asks:
            raise Unreadable(f"line {self.numbers[version]} is a line of {said(version)} already", column)
        self.numbers[version] = words.number
        self.asks[version] = entries.get("needs", []), entries.get("limits", [])
        for mark in marks:
            self.marked[mark].add(version)

    def entries(self, words, *kinds):
        """The entries up to the end of the line, by their kinds."""
        found = {kind: [] for kind in ENTRIES}
        while words.next() is not None:
            if words.next() not in kinds:
                raise words.fault(f"{', '.join(f'`{kind}`' for kind in kinds)}, or the end of the line")
            kind = words.take()
            found[kind].append(self.entry(kind, words))
        return found

    def entry(self, kind, words):
        """What is behind the first word of an entry, up to the next one."""
        more, read = "", True
        if kind == "needs":
            read, more = self.need(words)
        elif kind == "limits":
            read = self.span(words, "limits")
        if words.next() not in (None, *ENTRIES):
            raise words.fault(f"{more}an entry, or the end of the line")
        return read

    def need(self, words):
        """A need, and what might have continued it."""
        union = [self.span(words, "union")]
        while words.skips("|"):
            union.append(self.span(words, "union"))
        if not words.skips("if"):
            return (union, None), "`|`, `if`, "
        lists = [[self.span(words, "condition")]]
        while words.next() in ("and", "or"):
            if words.take() == "or":
                lists.append([])
            lists[-1].append(self.span(words, "condition"))
        return (union, lists), "`and`, `or`, "

    def span(self, words, place):
        """A package's name and a range."""
        column = words.column()
        if words.next() is None or words.next() in NO_NAMES[place]:
            raise words.fault("a package's name, and a range behind it")
        name = words.take()
        low, dots, high = (words.next() or "").partition("..")
        if not dots:
            raise words.fault(f"a range LOW..HIGH, as {self.kind.RANGE}")
        ends = words.value(self.kind, low, "lower end"), words.value(self.kind, high, "upper end", len(low + dots))
        if ends[0] > ends[1]:
            raise words.fault("LOW..HIGH with a LOW that isn't above HIGH")
        words.take()
        self.sets.append((words.number, column, (name, *ends)))
        return name, *ends


def listings(text):
    """The indexes of a text's bytes. Lines before the first request are an index too, and can't be read."""
    found = []
    for number, line in lines(text):
        try:
            words = Words(number, line)
            if words.next() is None:
                continue
            if not found or words.next() == "request":
                found.append(Listing(number))
            found[-1].read(words)
        except Unreadable as why:
            found = found or [Listing(number)]
            found[-1].faults.append(Fault(number, why.column, str(why), line))
    return found


def begins_index(text):
    """Whether the first line of a text that isn't skipped begins an index."""
    firsts = (line.strip(b" ").partition(b" ")[0] for _, line in lines(text))
    return next((first for first in firsts if first and not first.startswith(b"#")), None) == b"request"
