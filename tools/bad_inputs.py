"""The inputs of tools/bad-input: what each is, how it is given, and what becomes of it."""
import random
from dataclasses import dataclass

# What an input is in each of the two formats, if it is in the format.
GOOD = {
    "script": b"package a 1 2\nset a 1 3\nbegin\nload s0\n",
    "index": b"request needs a 1..9\na 1\na 2 needs b 1..9\nb 1\n",
}
PIECE = 1 << 20


@dataclass(frozen=True)
class Input:
    """An input. `text` makes its pieces, of a format and of a size; of one without it `way` says what is given.

    `outcome` is what becomes of it, in each format: a key of `SCRIPTS` or of `indexes()` in bad_runs, perhaps with a line's number.
    """

    name: str
    outcome: dict
    text: object = None
    way: str = "text"
    output: str = "file"
    formats: tuple = ("script", "index")


def same(text):
    """The same bytes in each format, whatever the size."""
    return lambda format, size: [text]


def good(format, size):
    return [GOOD[format]]


def cut(format, size):
    """The middle of the last line of a script, and of the third of an index."""
    return [GOOD[format].removesuffix(b"0\n" if format == "script" else b".9\nb 1\n")]


def many(unit, first=b"", last=b"", most=None):
    """Copies of some bytes behind the first ones, which make the size, or as many as are given if these are fewer."""

    def pieces(format, size):
        yield first
        left = min(size // len(unit), most or size)
        at_once = max(1, PIECE // len(unit))
        while left > 0:
            yield unit * min(left, at_once)
            left -= at_once
        yield last

    return pieces


def each(line, count, first=b""):
    """A line for each number from 1 to the count, which is fewer if the size is."""
    return lambda format, size: [first, *(line % number for number in range(1, min(count, size // 10) + 1))]


def needs(count):
    """A request that needs each of so many packages, and a version of each."""

    def pieces(format, size):
        numbers = range(min(count, size // 10))
        yield b"request" + b"".join(b" needs p%d 1..2" % number for number in numbers) + b"\n"
        yield from (b"p%d 1\n" % number for number in numbers)

    return pieces


def both(outcome):
    return {"script": outcome, "index": outcome}


UNREADABLE, NOTHING, ANSWER = both("line 1"), both("nothing"), both("answer")
UNREAD, UNWRITTEN = both("unread"), both("unwritten")
INDEX, SCRIPT = ("index",), ("script",)
MOST_SETS = (1 << 21) // 3  # of three words each, in a line of an index
PRINTED = bytes(range(33, 127))

INPUTS = [
    Input("empty input", NOTHING, same(b"")),
    Input("no final line feed", ANSWER, lambda format, size: [GOOD[format].removesuffix(b"\n")]),
    Input("cut in a line", {"script": "line 4", "index": "line 3"}, cut),
    Input("CRLF ends", ANSWER, lambda format, size: [GOOD[format].replace(b"\n", b"\r\n")]),
    Input("CR ends", UNREADABLE, lambda format, size: [GOOD[format].replace(b"\n", b"\r")]),
    Input("all 256 bytes", UNREADABLE, same(bytes(range(256)))),
    Input("1 MB of drawn bytes", UNREADABLE, lambda format, size: [random.Random(1).randbytes(PIECE)]),
    Input("a line of printed characters", UNREADABLE, many(PRINTED)),
    Input("a line of blanks", NOTHING, many(b" ")),
    Input("a line of one word", UNREADABLE, many(b"x")),
    Input("a line of needs", UNREADABLE, many(b"needs a 1..2 ")),
    Input("a comment", NOTHING, many(b"x", b"# ")),
    Input("empty lines", NOTHING, lambda format, size: many(b"\n")(format, size // 10)),
    Input("CRLF empty lines", NOTHING, lambda format, size: many(b"\r\n")(format, size // 10)),
    Input("a request of needs", {"index": "none"}, many(b"needs a 1..2 ", b"request ", most=MOST_SETS), formats=INDEX),
    Input("a request of needs that are met", {"index": "a 1"},
          many(b"needs a 1..2 ", b"request ", b"\na 1\n", most=MOST_SETS), formats=INDEX),
    Input("a request of a union", {"index": "none"}, many(b"| a 1..2 ", b"request needs a 1..2 ", most=MOST_SETS - 1),
          formats=INDEX),
    Input("a request of too many needs", {"index": "line 1"},
          lambda format, size: many(b"needs a 1..2 ", b"request ")(format, max(size, 13 * (MOST_SETS + 1))),
          formats=INDEX),
    Input("a version of too many needs", {"index": "line 2"},
          lambda format, size: many(b"needs a 1.0.0..2.0.0 ", b"request semver needs a 1.0.0..2.0.0\na 1.0.0 ")(
              format, max(size, 21 * (MOST_SETS + 1))),
          formats=INDEX),
    Input("a request and blanks", {"index": "no version"}, many(b" ", b"request"), formats=INDEX),
    Input("a request of no needs", UNREADABLE, many(b"x ", b"request "), formats=INDEX),
    Input("a long number", UNREADABLE, many(b"0", b"request needs a ", b"1..2\n"), formats=INDEX),
    Input("2,000 needs", {"index": "versions"}, needs(2_000), formats=INDEX),
    Input("8,000 needs", {"index": "versions"}, needs(8_000), formats=INDEX),
    Input("20,000 versions", {"index": "versions"}, each(b"a %d\n", 20_000, b"request needs a 1..100001\n"),
          formats=INDEX),
    Input("100,000 versions", {"index": "versions"}, each(b"a %d\n", 100_000, b"request needs a 1..100001\n"),
          formats=INDEX),
    Input("20,000 excluded versions", {"index": "none"},
          each(b"a %d excluded since\n", 20_000, b"request needs a 1..20001\n"), formats=INDEX),
    Input("100,000 indexes", {"index": "indexes"}, each(b"request\n# %d\n", 100_000), formats=INDEX),
    Input("a package of versions", {"script": "nothing or memory"}, many(b" 1", b"package a"), formats=SCRIPT),
    Input("a load of unreadable words", {"script": "line 2"}, many(b" x", b"begin\nload"), formats=SCRIPT),
    Input("a learnt clause", {"script": "refused or memory"}, many(b" +0", b"begin\nlearnt", b"\n"), formats=SCRIPT),
    Input("100,000 packages", {"script": "nothing"}, each(b"package p%d 1\n", 100_000), formats=SCRIPT),
    Input("a directory as standard input", UNREAD, way="directory input"),
    Input("standard input closed", UNREAD, way="closed input"),
    Input("a directory as a file", UNREAD, way="directory"),
    Input("a missing file", UNREAD, way="missing"),
    Input("a file with no name", UNREAD, way="no name"),
    Input("an unreadable file", UNREAD, way="unreadable"),
    Input("a file whose reads fail", UNREAD, way="failing"),
    Input("a name with quotes and line feeds", ANSWER, good, way="odd"),
    Input("a missing file with quotes and line feeds", UNREAD, way="odd missing"),
    Input("a name that isn't UTF-8", both("no text"), good, way="no text"),
    Input("standard output closed", UNWRITTEN, good, output="closed"),
    Input("a full device as output", UNWRITTEN, good, output="full"),
    Input("nobody reads the output", UNWRITTEN, good, output="unread"),
    Input("a full device, and nothing to write", NOTHING, same(b""), output="full"),
]
