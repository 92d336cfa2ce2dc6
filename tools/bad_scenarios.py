"""The scenarios of tools/bad-input, which apt_solver reads, and what becomes of each."""
import random

from bad_inputs import PRINTED, PIECE, Input, many, same

REQUEST = "Request: EDSP 0.5\nArchitecture: amd64\nInstall: a:amd64\n\n"
STANZA = "Package: {}\nArchitecture: amd64\nVersion: {}\nAPT-ID: {}\nAPT-Candidate: yes\n{}\n"
GOOD = (REQUEST + STANZA.format("a", 1, 1, "Depends: b\n") + STANZA.format("b", 1, 2, "")).encode()
SCENARIO = ("scenario",)


def scenario(name, outcome, text=None, **others):
    return Input(name, {"scenario": outcome}, text, formats=SCENARIO, **others)


def changed(old, new):
    """The good scenario with other bytes, which stand in it."""
    assert old in GOOD
    return same(GOOD.replace(old, new))


def packages(count, first, others=lambda number: "", name="p{}", version=lambda number: 1):
    """A package `a` with a line `first`, and so many others, or fewer if the size is small."""

    def pieces(format, size):
        numbers = range(min(count, size // 100))
        yield REQUEST.encode()
        yield STANZA.format("a", 1, count, first(numbers)).encode()
        yield from (STANZA.format(name.format(n), version(n), n, others(n)).encode() for n in numbers)

    return pieces


def field(name, mark):
    """A field of all other packages' names, with marks between them."""
    return lambda numbers: f"{name}: {mark.join(f'p{number}' for number in numbers)}\n"


def line(text):
    return lambda _: f"{text}\n"


def request(value, most=None):
    """A request of copies of some bytes, which make the size, or as many as are given if these are fewer."""
    return many(value, b"Request: EDSP 0.5\nArchitecture: amd64\nInstall: ", b"\n\n", most)


SCENARIOS = [
    scenario("empty input", "cut", same(b"")),
    scenario("cut in a line", "cut", same(GOOD[:-5])),
    scenario("cut behind a line", "cut", same(GOOD[:-1])),
    scenario("cut behind the request", "no solution", same(REQUEST.encode())),
    scenario("cut behind a stanza that is needed", "no solution", same(GOOD[: GOOD.index(b"Package: b")])),
    scenario("no request", "request", same(GOOD[GOOD.index(b"Package"):])),
    scenario("CRLF ends", "cut", same(GOOD.replace(b"\n", b"\r\n"))),
    scenario("all 256 bytes", "cut", same(bytes(range(256)))),
    scenario("all 256 bytes and an end", "request", same(bytes(range(256)) + b"\n\n")),
    scenario("1 MB of drawn bytes", "cut", same(random.Random(1).randbytes(PIECE))),
    scenario("1 MB of drawn bytes and an end", "request", same(random.Random(1).randbytes(PIECE) + b"\n\n")),
    scenario("a package of drawn bytes", "package", same(GOOD + random.Random(2).randbytes(1000) + b"\n\n")),
    scenario("a line of printed characters", "cut", many(PRINTED)),
    scenario("a line of blanks and an end", "request", many(b" ", last=b"\n\n")),
    scenario("empty lines", "request", lambda format, size: many(b"\n")(format, size // 10)),
    scenario("a field twice", "package", changed(b"Depends: b", b"Version: 2")),
    scenario("no version", "package", changed(b"Version: 1\nAPT-ID: 2", b"APT-ID: 2")),
    scenario("a line without a colon", "package", changed(b"Depends: b", b"Depends b")),
    scenario("a dependency of bytes that are no text", "no solution", changed(b"Depends: b", b"Depends: \xff\x00")),
    scenario("a dependency that can't be read", "no solution", changed(b"Depends: b", b"Depends: b (=> 1)")),
    scenario("a conflict that can't be read", "no solution", changed(b"Depends: b", b"Conflicts: b (")),
    scenario("an id with a blank", "package", changed(b"APT-ID: 2", b"APT-ID: 2 3")),
    scenario("a name that conflicts with itself", "a", changed(b"Depends: b", b"Conflicts: a")),
    scenario("a request of a long name", "a long error", request(b"x")),
    scenario("a request of 100,000 names", "no solution", request(b"x ", most=100_000)),
    scenario("2,000 dependencies", "many", packages(2_000, field("Depends", ", "))),
    scenario("20,000 alternatives", "a b", packages(20_000, field("Depends", " | "))),
    scenario("20,000 conflicts", "a", packages(20_000, field("Conflicts", ", "))),
    scenario("20,000 packages that provide a name", "a b", packages(20_000, line("Depends: v"), line("Provides: v"))),
    scenario("2,000 of them that conflict", "a b",
             packages(2_000, line("Depends: v"), lambda _: "Provides: v\nConflicts: v\n")),
    scenario("2,000 versions", "a b",
             packages(2_000, line("Depends: p"), name="p", version=lambda number: number)),
    scenario("a chain of 5,000 packages", "many",
             packages(5_000, line("Depends: p0"), lambda number: f"Depends: p{number + 1}\n" if number < 4_999 else "")),
    scenario("1,000,000 packages", "a", packages(1_000_000, line("Section: x"))),
    scenario("a directory as standard input", "unread", way="directory input"),
    scenario("standard input closed", "unread", way="closed input"),
    scenario("standard output closed", "unwritten", same(GOOD), output="closed"),
    scenario("a full device as output", "unwritten", same(GOOD), output="full"),
    scenario("nobody reads the output", "unwritten", same(GOOD), output="unread"),
]
