"""Packages as a Debian `Packages` file lists them: the order of their versions, and which of them meet a relation."""
import functools
import operator
import re
from dataclasses import dataclass

FIELDS = "Package Version Architecture Multi-Arch Priority Provides Pre-Depends Depends Conflicts Breaks".split()
FIELD = re.compile(rf"^({'|'.join(FIELDS)}):[ \t]*(.*(?:\n[ \t].*)*)", re.MULTILINE)
RELATION = re.compile(r"([^\s:()]+)(?::([^\s:()]+))?\s*(?:\(\s*(<<|<=|=|>=|>>)\s*([^\s()]+)\s*\))?")
COMPARISONS = {"<<": operator.lt, "<=": operator.le, "=": operator.eq, ">=": operator.ge, ">>": operator.gt}
PRIORITIES = {name: place for place, name in enumerate(("required", "important", "standard", "optional", "extra"))}


class Fault(Exception):
    """Why a script can't go on, in a sentence."""


def read_text(path):
    try:
        with open(path, encoding="utf-8", errors="replace") as file:
            return file.read()
    except OSError as fault:
        raise Fault(f"{path}: {fault.strerror}")


@functools.cache
def version_key(version):
    """What a version is sorted by: its epoch, its upstream version and its Debian revision."""
    epoch, colon, rest = version.partition(":")
    if not colon:
        epoch, rest = "0", version
    upstream, hyphen, revision = rest.rpartition("-")
    if not hyphen:
        upstream, revision = rest, "0"
    return int(epoch) if epoch.isdecimal() else 0, part_key(upstream), part_key(revision)


def part_key(part):
    """Texts and numbers in turn. In a text a tilde comes before its end, letters after that, and then all else."""
    return [(text_key(text), int(digits or 0)) for text, digits in re.findall(r"([^0-9]*)([0-9]*)", part)]


def text_key(text):
    return [-1 if letter == "~" else ord(letter) + 256 * (not letter.isalpha()) for letter in text] + [0]


@dataclass(frozen=True)
class Relation:
    """What is said of a package by name, as `libc6:any (>= 2.36)`. What isn't said is an empty text."""

    name: str
    architecture: str = ""
    comparison: str = ""
    version: str = ""

    def __str__(self):
        name = f"{self.name}:{self.architecture}" if self.architecture else self.name
        return f"{name} ({self.comparison} {self.version})" if self.comparison else name

    def holds(self, version):
        """Whether a version is one of those that it asks for."""
        if not self.comparison:
            return True
        return COMPARISONS[self.comparison](version_key(version), version_key(self.version))


def read_relations(field):
    """The entries of a field, each a list of alternatives."""
    return [[read_relation(text.strip()) for text in entry.split("|")] for entry in field.split(",") if entry.strip()]


def read_relation(text):
    found = RELATION.fullmatch(text)
    if not found:
        raise Fault(f"`{text}` is no relation between packages")
    return Relation(*(part or "" for part in found.groups()))


class Union(tuple):
    """Solvables of which one is enough, the best first, and the alternatives that ask for them."""

    text = ""


class Solvable:
    """A package in one version. Its rank counts the versions of its package from 1, the oldest first."""

    def __init__(self, fields):
        self.name, self.version = fields["Package"], fields["Version"]
        self.fields, self.rank = fields, 0

    def __str__(self):
        return f"{self.name} {self.version}"

    def entries(self, *fields):
        return [entry for field in fields for entry in read_relations(self.fields.get(field, ""))]

    def is_of(self, architecture):
        """Whether a relation with this qualifier may speak of it. That with `any` speaks of what allows it alone."""
        if architecture == "any":
            return self.fields.get("Multi-Arch") == "allowed"
        return not architecture or self.fields["Architecture"] in (architecture, "all")

    def preference(self):
        """What the providers of a name are sorted by, the first being tried first."""
        priority = PRIORITIES.get(self.fields.get("Priority"), len(PRIORITIES))
        return priority, self.name, -self.rank


def read_fields(text):
    """The fields of each paragraph that has some."""
    return filter(None, (dict(FIELD.findall(paragraph)) for paragraph in re.split(r"\n\s*\n", text)))


class Archive:
    """All that the paragraphs of a `Packages` file list, which have to be of one architecture."""

    def __init__(self, paragraphs):
        self.packages, self.architecture = {}, None
        for fields in paragraphs:
            self.add(fields)
        for versions in self.packages.values():
            versions.sort(key=lambda it: version_key(it.version))
            for rank, solvable in enumerate(versions, 1):
                solvable.rank = rank
        self.provided = {}
        for solvable in sorted(self.solvables(), key=Solvable.preference):
            for entry in solvable.entries("Provides"):
                for relation in entry:
                    self.provided.setdefault(relation.name, []).append((relation.version, solvable))

    def add(self, fields):
        """Adds a solvable, unless it is listed already, as one is that two suites have."""
        for field in ("Package", "Version", "Architecture"):
            if field not in fields:
                raise Fault(f"a paragraph has no {field}: {', '.join(fields.values())}"[:100])
        if fields["Architecture"] != "all":
            self.architecture = self.architecture or fields["Architecture"]
            if fields["Architecture"] != self.architecture:
                raise Fault(f"{fields['Package']} is of {fields['Architecture']}, others are of {self.architecture}")
        versions = self.packages.setdefault(fields["Package"], [])
        if all(it.version != fields["Version"] for it in versions):
            versions.append(Solvable(fields))

    def solvables(self):
        return [solvable for versions in self.packages.values() for solvable in versions]

    @functools.cache
    def meeting(self, relation):
        """The solvables that meet a relation, the best first: those of its name, and those that provide it. A name that
        is provided without a version meets only a relation that asks for none.
        """
        named = [it for it in reversed(self.packages.get(relation.name, ())) if relation.holds(it.version)]
        provided = self.provided.get(relation.name, ())
        providing = [it for at, it in provided if (relation.holds(at) if at else not relation.comparison)]
        return tuple(it for it in dict.fromkeys(named + providing) if it.is_of(relation.architecture))

    @functools.cache
    def needs(self, solvable):
        """What has to be picked with a solvable: of each list one, the best first. What it meets itself isn't told."""
        unions = [self.union(entry) for entry in solvable.entries("Pre-Depends", "Depends")]
        return [union for union in dict.fromkeys(unions) if solvable not in union]

    def union(self, alternatives):
        found = Union(dict.fromkeys(it for relation in alternatives for it in self.meeting(relation)))
        found.text = " | ".join(map(str, alternatives))
        return found

    @functools.cache
    def forbidden(self, solvable):
        """What can't be picked with a solvable. It forbids nothing of its own package, whatever that provides."""
        relations = [relation for entry in solvable.entries("Conflicts", "Breaks") for relation in entry]
        return tuple(dict.fromkeys(it for it in self.union(relations) if it.name != solvable.name))

    def conflicts(self):
        """All pairs of a solvable and one that it forbids."""
        return [(solvable, it) for solvable in self.solvables() for it in self.forbidden(solvable)]

    def wanted(self, word):
        """The solvables that meet a name that is asked for, or a name with a version behind a `=`. What provides the
        name is asked for only if no package has it, and never in a version.
        """
        name, equals, version = word.partition("=")
        versions = self.packages.get(name, ())
        found = [it for it in reversed(versions) if not equals or version_key(it.version) == version_key(version)]
        if not versions and not equals:
            found = self.meeting(Relation(name))
        if found:
            return tuple(found)
        if versions:
            raise Fault(f"{name} has no version {version}; it has {', '.join(it.version for it in versions)}")
        raise Fault(f"no package is named {name}" + ("" if equals else ", and none provides it"))
