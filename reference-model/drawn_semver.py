"""Small indexes with SemVer versions that are drawn."""
import random

from drawn_indexes import DrawnIndex
from versions import SemVer

# Versions in the order that docs/INDEX.md means. Neighbours differ in what decides there.
ASCENDING = (
    "0.0.0-0",
    "0.0.0",
    "0.9.9-18446744073709551616",
    "0.9.9",
    "1.0.0-0",
    "1.0.0-0.0",
    "1.0.0-0.a",
    "1.0.0-9",
    "1.0.0-10",
    "1.0.0-18446744073709551615",
    "1.0.0-18446744073709551616",
    "1.0.0--",
    "1.0.0--1",
    "1.0.0-0a",
    "1.0.0-10a",
    "1.0.0-9a",
    "1.0.0-ALPHA",
    "1.0.0-alpha",
    "1.0.0-alpha+1",
    "1.0.0-alpha.1",
    "1.0.0-alpha.1.0",
    "1.0.0-alpha.beta",
    "1.0.0-alpha-1",
    "1.0.0-alpha1",
    "1.0.0-beta.2",
    "1.0.0-beta.11",
    "1.0.0-rc.1",
    "1.0.0-rc.1+rc.2",
    "1.0.0-rc.2",
    "1.0.0",
    "1.0.0+0",
    "1.0.0+0.a",
    "1.0.0+00",
    "1.0.0+1",
    "1.0.0+1.2",
    "1.0.0+01.1",
    "1.0.0+001",
    "1.0.0+9",
    "1.0.0+10",
    "1.0.0+18446744073709551616",
    "1.0.0+-",
    "1.0.0+0a",
    "1.0.0+A",
    "1.0.0+a",
    "1.0.0+a.01",
    "1.0.0+a.b",
    "1.0.0+a-b",
    "1.0.0+b",
    "1.0.1-0",
    "1.0.1",
    "1.0.10",
    "1.9.0",
    "1.10.0",
    "9.9.9",
    "10.0.0-0+b",
    "10.0.0",
    "18446744073709551615.0.0",
    "18446744073709551615.18446744073709551615.18446744073709551615-0",
    "18446744073709551615.18446744073709551615.18446744073709551615",
)
VERSIONS = [SemVer.read(text, "version") for text in ASCENDING]
UNREADABLE = (
    "a",
    "a 1",
    "a 1.0",
    "a 1.0.",
    "a 1.0.0.0",
    "a 1..0",
    "a 01.0.0",
    "a 1.00.0",
    "a 1.0.01",
    "a v1.0.0",
    "a +1.0.0",
    "a -1.0.0",
    "a 1.0.x",
    "a 1.0.0-",
    "a 1.0.0+",
    "a 1.0.0-+b",
    "a 1.0.0-01",
    "a 1.0.0-a.00",
    "a 1.0.0-a..b",
    "a 1.0.0-.a",
    "a 1.0.0+a.",
    "a 1.0.0+a+b",
    "a 1.0.0-a_b",
    "a 1.0.0*",
    "a 18446744073709551616.0.0",
    "a 1.18446744073709551616.0",
    "a 1.0.100000000000000000000",
    "a semver 1.0.0",
    "a 1.0.0 semver",
    "a 1.0.0 1.0.1",
    "a 1.0.0 needs b 1..2",
    "a 1.0.0 needs b 1.0..2.0",
    "a 1.0.0 needs b 1.0.0",
    "a 1.0.0 needs b 1.0.0.2.0.0",
    "a 1.0.0 needs b 1.0.0...2.0.0",
    "a 1.0.0 needs b 1.0.0..2.0.0.",
    "a 1.0.0 needs b 1.0.0-..2.0.0",
    "a 1.0.0 needs b 1.0.0-a.2.0.0",
    "a 1.0.0 needs b ..2.0.0",
    "a 1.0.0 needs b 1.0.0..",
    "a 1.0.0 needs b 2.0.0..1.0.0",
    "a 1.0.0 needs b 1.10.0..1.9.0",
    "a 1.0.0 needs b 1.0.0..1.0.0-rc.1",
    "a 1.0.0 needs b 1.0.0-10..1.0.0-9",
    "a 1.0.0 limits b 1.0.0+b..1.0.0+a",
    "a 1.0.0 limits b 1.0.0+01..1.0.0+1",
    "a 1.0.0 needs b 1.0.0..2.0.0 | c 1..2",
    "a 1.0.0 needs b 1.0.0..2.0.0 if c 1..2",
    "a 1.0.0 favored excluded why",
)
UNREADABLE_REQUESTS = (
    "request semver 1",
    "request semver 1.0.0",
    "request semver semver needs a 1.0.0..2.0.0",
    "request semver needs a 1..2",
    "request semver needs a 2.0.0..1.0.0",
    "request semver needs a 1.0.0..2.0.0 semver",
    "request needs a 1.0.0..2.0.0",
    "request needs a 1..3 semver",
    "request SemVer needs a 1.0.0..2.0.0",
    "request semver2 needs a 1.0.0..2.0.0",
    "request semver favored",
    "request semver limits a 1.0.0..2.0.0",
)


class DrawnSemVerIndex(DrawnIndex):
    """An index whose numbers are written by ascending versions."""

    head, written = ("request", "semver"), SemVer
    unreadable, unreadable_requests = UNREADABLE, UNREADABLE_REQUESTS

    def drawn_table(self, drawn):
        """Versions that are neighbours, or farther apart."""
        first = drawn.randint(0, len(VERSIONS) - 10)
        self.places = sorted(drawn.sample(range(first, drawn.randint(first + 10, len(VERSIONS))), 10))
        return [VERSIONS[place] for place in self.places]

    def in_some_order(self, drawn, versions):
        """In half of the indexes a later line may have a lower version."""
        return drawn.sample(versions, len(versions)) if drawn.random() < 0.5 else versions

    def bounds(self, drawn, first, end):
        """A bound may be any version below the one that it stands for and above the next lower one of the table."""
        places = [drawn.randint(self.places[number - 1] + 1, self.places[number]) for number in (first, end)]
        return [VERSIONS[place] for place in sorted(places)]

    def again(self, name, number):
        return f"{name} {number}"


def some_in_semver(indexes, seed):
    """These indexes, but for about a sixth of them, for which others are drawn that have SemVer versions."""
    drawn = random.Random(f"semver {seed}")
    return [DrawnSemVerIndex(drawn) if drawn.random() < 1 / 6 else index for index in indexes]
