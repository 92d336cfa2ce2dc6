"""The versions of indexes (docs/INDEX.md): numbers, or versions of SemVer 2.0. Each kind is read here."""
import re

from reading import Unreadable, number

# What may stand between the dots of a pre-release, and of build metadata.
PRE_RELEASE = "(?:0|[1-9][0-9]*|[0-9]*[A-Za-z-][0-9A-Za-z-]*)"
BUILD = "[0-9A-Za-z-]+"
SEMVER = re.compile(
    r"(0|[1-9][0-9]*)\.(0|[1-9][0-9]*)\.(0|[1-9][0-9]*)"
    rf"(?:-({PRE_RELEASE}(?:\.{PRE_RELEASE})*))?"
    rf"(?:\+({BUILD}(?:\.{BUILD})*))?"
)


class Numbers:
    """Versions that are numbers."""

    VERSION, RANGE = "the version's number", "1..3"

    @staticmethod
    def read(word, what):
        try:
            return int(number(word, 2**32, what))
        except Unreadable as why:
            hint = ", unless `request semver` begins the index" if SEMVER.fullmatch(word) else ""
            raise Unreadable(f"{why}{hint}") from None


class SemVer:
    """A SemVer version. The order is SemVer's, and then that of the build metadata, identifier by identifier."""

    VERSION, RANGE = "a SemVer version, as 1.4.0", "1.4.0..2.0.0"

    def __init__(self, text, numbers, pre_release, build):
        self.text = text
        # Any version with a pre-release is lower than the one without.
        self.key = numbers, not pre_release, [*map(rank, pre_release)], [*map(rank, build)]

    @classmethod
    def read(cls, word, what):
        found = SEMVER.fullmatch(word)
        if not found:
            raise Unreadable(f"{f'{what} {word}'.rstrip()}: expected {cls.VERSION}")
        *numbers, pre_release, build = found.groups()
        if any(len(digits) > 20 or int(digits) >= 2**64 for digits in numbers):
            raise Unreadable(f"{what} {word}: its three numbers have to be below 2^64")
        return cls(word, [*map(int, numbers)], identifiers(pre_release), identifiers(build))

    def __str__(self):
        return self.text

    def __hash__(self):
        return hash(self.text)

    def __eq__(self, other):
        return isinstance(other, SemVer) and self.key == other.key

    def __lt__(self, other):
        return self.key < other.key

    def __le__(self, other):
        return self.key <= other.key


def identifiers(text):
    return text.split(".") if text else []


def rank(identifier):
    """Numbers are lower than other identifiers, and in the order of their values. Of build metadata they may have zeros
    in front: of two with one value that with more zeros is higher. Other identifiers are in the order of ASCII.
    """
    if not identifier.isdigit():
        return True, identifier
    digits = identifier.lstrip("0")
    return False, len(digits), digits, len(identifier)
