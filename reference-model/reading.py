"""Reads the lines of a script (docs/FORMAT.md), and says of one that isn't in the format why.

Numbers come back without leading zeros, so that words that name the same thing are the same.
"""


import re


class Unreadable(Exception):
    """Why a line isn't in the format, and perhaps in which column: these are counted from 1."""

    def __init__(self, why, column=None):
        super().__init__(why)
        self.column = column


# What a word may be, and the limit of its number.
ID = 2**32 - 1
LIMITS = {
    "VERSION": 2**32,
    "LOW": 2**32,
    "HIGH": 2**32,
    "LEVEL": 2**32,
    "SET": 2**32,
    "SOLVABLE": 2**32,
    "NAMEID": 2**32,
    "STRING": 2**32,
    "C": ID,
    "CONDITION": ID,
    "V": 2**31 - 1,
    "PARENT": 2**31 - 1,
    "CLAUSE": ID,
    "DISJUNCTION": ID,
    "AMOUNT": 2**64,
    "N": 2**64,
    "D": 2**64,
}
# What a number is called where its word in a form doesn't say it.
NAMES = {"V": "variable", "PARENT": "variable", "C": "condition", "NAMEID": "name's number", "SET": "version set"}
NAMES |= {"LOW": "lower end", "HIGH": "upper end", "N": "numerator", "D": "denominator"}
# The forms of lines: words in small letters stand for themselves, one with dots may come more often.
CATALOGUE = [
    "package NAME VERSION ..",
    "set NAME LOW HIGH",
    "union SET ..",
    "condition set SET",
    "condition and C C",
    "condition or C C",
    "string WORD",
    "begin",
]
COMMANDS = [
    "variable SOLVABLE",
    "helper any-of NAMEID",
    "helper violation SET",
    "helper gate R",
    "load R",
    "disjunction CONDITION LIT ..",
    "requires PARENT R",
    "requires PARENT R DISJUNCTION",
    "root",
    "constrains V V SET",
    "constrains-excluded V V SET",
    "constrains-parent V V SET",
    "lock V V",
    "any-of V V",
    "exclude V STRING",
    "learnt LIT ..",
    "at-most-once NAMEID V",
    "assign V BOOL CLAUSE LEVEL",
    "undo-last",
    "undo-until LEVEL",
    "unpropagated",
    "bump NAMEID AMOUNT",
    "decay N D",
    "standard BOOL",
    "rewatch CLAUSE LIT LIT",
    "watchers LIT",
    "saturate LEVEL",
    "decide",
]
# Of these none is needed; of every other form with dots one is.
MAY_BE_NONE = ("disjunction", "learnt")


def lines(script):
    """The lines of a script's bytes, from 1 on, each as its bytes."""
    parts = script.split(b"\n")
    if parts[-1] == b"":
        parts.pop()
    return enumerate((part.removesuffix(b"\r") for part in parts), 1)


def words(line):
    """The words of a line; none of a comment."""
    return [word for _, word in placed_words(line)]


def placed_words(line):
    """The words of a line, each behind its column; none of a comment."""
    for column, byte in enumerate(line, 1):
        if not 32 <= byte <= 126:
            what = "a tab" if byte == 9 else f"the byte {byte}"
            raise Unreadable(f"{what} is no printed character of ASCII, nor a blank", column)
    cut = [(found.start() + 1, found[0]) for found in re.finditer("[^ ]+", line.decode("ascii"))]
    return [] if cut and cut[0][1].startswith("#") else cut


def number(word, limit, what):
    """The number that a word is, without leading zeros."""
    if len(word) > 20:
        raise Unreadable(f"{what} {word}: it may have twenty digits at most")
    if not word.isdigit() or int(word) >= limit:
        raise Unreadable(f"{what} {word or 'without digits'}: it has to be a number below {shown(limit)}")
    return str(int(word))


def shown(limit):
    """A limit, as docs/FORMAT.md has it."""
    power = (limit - 1).bit_length()
    return f"2^{power}" if limit == 2**power else f"2^{power} - 1"


def one(form, word):
    """A word that is of its form."""
    if form == "LIT":
        if word[0] not in "+-":
            raise Unreadable(f"literal {word}: `+` or `-`, and directly behind it a variable's number")
        return word[0] + number(word[1:], LIMITS["V"], "literal's variable")
    if form == "R":
        if word[0] not in "su":
            raise Unreadable(f"requirement {word}: `s` and a version set's number, or `u` and a union's")
        return word[0] + number(word[1:], LIMITS["SET"], "requirement's number")
    if form == "BOOL" and word not in ("true", "false"):
        raise Unreadable(f"{word}: it has to be `true` or `false`")
    if form == "VERSION" and word.endswith("*"):
        return number(word[:-1], LIMITS[form], "version") + "*"
    if form in LIMITS:
        return number(word, LIMITS[form], NAMES.get(form, form.lower()))
    return word


def of_form(form, line):
    """The words of a line that has so many words as its form, each of its form."""
    forms = form.split()
    if forms[-1] == "..":
        forms = forms[:-1] + [forms[-2]] * (len(line) - len(forms) + 1)
        least = len(form.split()) - 1 - (line[0] in MAY_BE_NONE)
        forms = forms[: max(len(line), least)]
    if len(forms) != len(line):
        count = "one word" if len(line) == 1 else f"{len(line)} words"
        raise Unreadable(f"{count}, and the form is `{form}`")
    return [one(*pair) for pair in zip(forms, line)]


def read_line(line, is_command):
    """The words of a line of the catalogue, or of a command, each of its form."""
    own, others = (COMMANDS, CATALOGUE) if is_command else (CATALOGUE, COMMANDS)
    fitting = [form for form in own if form.split()[0] == line[0]]
    if not fitting:
        if any(form.split()[0] == line[0] for form in others):
            if is_command:
                raise Unreadable(f"`{line[0]}` is a line of the catalogue, which `begin` has ended")
            raise Unreadable(f"`{line[0]}` is a command, and no `begin` comes before")
        raise Unreadable(f"unknown word `{line[0]}`")
    if len(fitting) > 1 and fitting[0].split()[1].islower():
        kinds = [form.split()[1] for form in fitting]
        if len(line) < 2 or line[1] not in kinds:
            raise Unreadable(f"behind `{line[0]}` comes one of {', '.join(kinds)}")
        fitting = [form for form in fitting if form.split()[1] == line[1]]
    same = [form for form in fitting if len(form.split()) == len(line)]
    return of_form((same or fitting)[0], line)
