"""Small indexes that are drawn, and their lines."""
from indexes import MARKS, Index, need_text, said, span_text
from versions import Numbers

NAMES = ("a", "b", "c", "d", "e", "f", "unknown", "excluded")
# How many ranges the lists of a condition have.
CONDITIONS = ((1,), (1,), (1,), (2,), (1, 1), (2, 1), (1, 2), (3,))
# How often a version is marked by each word, in an index that has such versions.
CHANCES = ((0.3, 0, 0, 0), (0, 0.1, 0, 0), (0, 0, 0.25, 0), (0, 0, 0, 0.25), (0.2, 0.06, 0.1, 0.1))
# Why a version is excluded or unknown. Some of these would say something elsewhere.
WHYS = ("broken", "too  old", "locked", "needs b", "b 1..3", "if favored", "#", '"no" locked', "unknown why")
UNREADABLE = (
    "a",
    "a x",
    "a +1",
    "a 4294967296",
    "a 000000000000000000001",
    "a 1 needs b",
    "a 1 needs b 1-3",
    "a 1 needs b 3..1",
    "a 1 needs b +1..3",
    "a 1 needs b 1..3 |",
    "a 1 needs b 1..3 if c",
    "a 1 needs b 1..3 if c 1..2 | d 1..2",
    "a 1 needs b 1..3 if c 1..2 and",
    "a 1 needs b 1..3 if or c 1..2",
    "a 1 needs b 1..3 and c 1..2",
    "a 1 needs needs 1..2",
    "a 1 needs b 1..3 | favored 1..2",
    "a 1 needs if 1..2",
    "a 1 limits b 1..2 | c 1..2",
    "a 1 limits b 1..2 if c 1..2",
    "a 1 limits locked 1..2",
    "a 1 if b 1..2",
    "a 1 wants b 1..2",
    'a 1 "why"',
    "a 1 favored excluded why",
    "a 1 needs b 1..3 unknown why",
    "a 1\tlocked",
    "\t",
    "\f",
    "a 1\rlocked",
    "caf\u00e9 1",
    "# caf\u00e9",
)
UNREADABLE_REQUESTS = (
    "request 1 needs a 1..3",
    "request needs a",
    "request needs a 3..1",
    "request needs a 1..3 locked",
    "request favored",
    "request limits a 1..3",
    "request excluded why",
)


class DrawnIndex(Index):
    """An index that is drawn, with its lines. `faulty` is the number of its unreadable line, or none. Its versions and
    ranges are drawn as numbers from 1 to 9, which are written by its table.
    """

    # How it begins, and how its versions are written.
    head, written = ("request",), Numbers
    unreadable, unreadable_requests = UNREADABLE, UNREADABLE_REQUESTS

    def __init__(self, drawn):
        self.table = self.drawn_table(drawn)
        names = NAMES[: drawn.choice((2, 3, 4, 4, 5, 5, 6, 7, 8))]
        self.versions = {name: self.table[1 : drawn.randint(1, 4) + 1] for name in names}
        self.is_close = drawn.random() < 0.6
        versions = self.in_some_order(drawn, [version for name in names for version in self.of_name(name)])
        marked = self.drawn_marks(drawn, versions)
        barred = marked["excluded"] | marked["unknown"]
        asks = {version: ([], []) if version in barred else self.drawn_asks(drawn) for version in versions}
        wanted = [self.request(drawn) for _ in range(drawn.choice((0, 1, 1, 1, 2, 2, 2, 3, 3, 3)))]
        super().__init__(wanted, asks, marked, self.written)
        self.lines = self.drawn_lines(drawn)
        self.faulty = self.drawn_fault(drawn) if drawn.random() < 0.1 else None

    def drawn_table(self, _):
        """What is written for each number from 0 to 9."""
        return range(10)

    def in_some_order(self, _, versions):
        """The versions as their lines come."""
        return versions

    def bounds(self, _, first, end):
        """How the bounds of a range from the first number up to the other one are written."""
        return self.table[first], self.table[end]

    def drawn_asks(self, drawn):
        """The needs and the limits of a version."""
        limits = drawn.choice((0, 1, 1, 2, 2) if self.is_close else (0, 0, 0, 1))
        needs = [self.need(drawn) for _ in range(drawn.choice((0, 0, 1, 1, 2)))]
        return needs, [self.span(drawn) for _ in range(limits)]

    def span(self, drawn):
        """A range, and of a close index one that has a version. Of others it may hold no number at all."""
        name = drawn.choice(list(self.versions))
        last = len(self.versions[name]) if self.is_close else 4
        first = drawn.randint(1, last)
        return name, *self.bounds(drawn, first, drawn.randint(first + self.is_close, last + 1))

    def need(self, drawn):
        spans = [self.span(drawn) for _ in range(drawn.choice((1, 1, 1, 2, 3)))]
        return spans, self.condition(drawn) if drawn.random() < 0.25 else None

    def request(self, drawn):
        """A need of the request: often of all versions of a package, and seldom under a condition."""
        spans = [self.span(drawn) for _ in range(drawn.choice((1, 1, 1, 2, 2, 3)))]
        spans = [(span[0], *self.bounds(drawn, 1, 9)) if drawn.random() < 0.5 else span for span in spans]
        return spans, self.condition(drawn) if drawn.random() < 0.1 else None

    def condition(self, drawn):
        return [[self.span(drawn) for _ in range(count)] for count in drawn.choice(CONDITIONS)]

    def drawn_marks(self, drawn, versions):
        """For each word that marks versions the set of these. Most indexes have none of these."""
        chances = drawn.choice(CHANCES) if drawn.random() < 0.3 else (0, 0, 0, 0)
        favored, locked, excluded, unknown = ({it for it in versions if drawn.random() < chance} for chance in chances)
        barred = excluded | unknown
        return dict(zip(MARKS, (favored - barred, locked - barred, excluded, unknown - excluded)))

    def drawn_line(self, drawn, version):
        """What says all of a version."""
        for word in ("excluded", "unknown"):
            if version in self.marked[word]:
                return f"{said(version)} {word} {drawn.choice(WHYS)}"
        needs, limits = self.asks[version]
        words = [*map(need_text, needs), *("limits " + span_text(it) for it in limits)]
        for word in ("favored", "locked"):
            if version in self.marked[word]:
                words.insert(drawn.randint(0, len(words)), word)
        return " ".join([said(version), *words])

    def drawn_lines(self, drawn):
        """Its lines, with comments and lines without words among them. The first of all is the request."""
        lines = [" ".join([*self.head, *map(need_text, self.wanted)])]
        lines += [self.drawn_line(drawn, version) for version in self.asks]
        for _ in range(drawn.choice((0, 0, 0, 1, 2))):
            other = drawn.choice(("# a comment", "  #a 1 needs", "#", "", " "))
            lines.insert(drawn.randint(1, len(lines)), other)
        return [drawn.choice(("", "", "", " ")) + line + drawn.choice(("", "", "", " ", "\r")) for line in lines]

    def drawn_fault(self, drawn):
        """Puts in a line that isn't in the format, or that tells of a version again. The number of its line, counted
        from 0 in the index.
        """
        kind = drawn.random()
        if kind < 0.2:
            self.lines[0] = drawn.choice(self.unreadable_requests)
            return 0
        place = len(self.lines) if kind < 0.4 else drawn.randint(1, len(self.lines))
        again = self.again(*drawn.choice(list(self.asks)))
        self.lines.insert(place, again if kind < 0.4 else drawn.choice(self.unreadable))
        return place

    def again(self, name, number):
        """Another line of a version."""
        return f"{name} 0{number}"

    def drop_request(self):
        """Leaves out the request, so that the first line that says something is unreadable."""
        del self.lines[0]
        first = next(place for place, line in enumerate(self.lines) if line.strip(" \r")[:1] not in ("", "#"))
        self.faulty = min(first, self.faulty - 1) if self.faulty else first
