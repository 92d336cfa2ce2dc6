"""What a scenario of apt says (docs/APT.md), and which packages are an answer to it, by Debian's rules."""
import re

RELATION = re.compile(r"\s*([^\s(:|]+)(?::([^\s(:|]+))?\s*(?:\((<<|<=|<|=|>=|>|>>)\s*([^\s)(|]+)\s*\))?\s*")
SIGNS = {"<<": (-1,), "<": (-1, 0), "<=": (-1, 0), "=": (0,), ">": (0, 1), ">=": (0, 1), ">>": (1,)}


def weight(letter):
    """The place of a letter in the order: `~` is before the end, and letters are before all other characters."""
    if letter == "~":
        return -1
    return ord(letter) if letter.isalpha() else ord(letter) + 256


def key(part):
    """What orders a part of a version: what isn't a digit, letter by letter, and the number behind it, in turn."""
    return [
        item
        for text, digits in re.findall(r"(\D*)(\d*)", part)
        for item in ([*map(weight, text), 0], int(digits or 0))
    ]


def split(version):
    epoch, rest = version.split(":", 1) if ":" in version else ("0", version)
    upstream, revision = rest.rsplit("-", 1) if "-" in rest else (rest, "")
    return int(epoch), key(upstream), key(revision)


def order(version, other):
    """-1, 0 or 1, as one version is before, beside or behind the other."""
    for mine, its in zip(split(version), split(other)):
        if isinstance(mine, list):
            longest = max(len(mine), len(its))
            mine, its = ([*it, *[[0], 0] * longest][:longest] for it in (mine, its))
        if mine != its:
            return -1 if mine < its else 1
    return 0


def parts_of(field, mark):
    """The parts of a field between marks, but for blank ones."""
    return [part for part in field.split(mark) if part.strip()]


class Relation:
    """A relation, as `git:any (>= 1:2.0)`. One that can't be read is met by nothing."""

    def __init__(self, text):
        found = RELATION.fullmatch(text)
        self.is_readable = found is not None
        self.name, self.qualifier, self.sign, self.version = found.groups() if found else (None,) * 4

    def has(self, version):
        """Whether a version is within the bound. What has none is within none."""
        return not self.sign or version is not None and order(version, self.version) in SIGNS[self.sign]

    def means(self, package):
        """Whether this is about the package, or something that it provides."""
        if self.name == package.name and self.has(package.version):
            return True
        given = map(Relation, parts_of(package.get("Provides"), ","))
        return any(it.is_readable and it.name == self.name and self.has(it.version) for it in given)


class Package:
    """A stanza about a package."""

    def __init__(self, place, fields, native):
        self.place, self.fields = place, fields
        self.name, self.version = fields["Package"], fields["Version"]
        self.architecture = native if fields["Architecture"] == "all" else fields["Architecture"]
        self.full_name = self.name, self.architecture

    def get(self, field):
        return self.fields.get(field, "")

    def says(self, field):
        return self.get(field) == "yes"

    def is_met_by(self, relation, other):
        """Whether another package is enough for a relation of this one."""
        if not relation.is_readable or not relation.means(other):
            return False
        if relation.qualifier is None:
            return other.architecture == self.architecture or other.get("Multi-Arch") == "foreign"
        if relation.qualifier == "any":
            return other.get("Multi-Arch") == "allowed"
        return other.architecture == relation.qualifier

    def groups(self, *fields):
        return [group for field in fields for group in parts_of(self.get(field), ",")]

    def is_group_met(self, group, there):
        """Whether one of these packages meets an alternative of a group."""
        return any(self.is_met_by(relation, other) for relation in map(Relation, group.split("|")) for other in there)

    def is_met(self, there):
        """Whether what this package depends on is there."""
        return all(self.is_group_met(group, there) for group in self.groups("Pre-Depends", "Depends"))

    def is_free(self, there):
        """Whether nothing of another name is there that this package conflicts with."""
        for field in ("Conflicts", "Breaks"):
            for relation in map(Relation, parts_of(self.get(field), ",")):
                if not relation.is_readable:
                    return False
                others = [it for it in there if it.name != self.name and relation.means(it)]
                if any(relation.qualifier in (None, "any", it.architecture) for it in others):
                    return False
        return True

    def fits(self, other):
        """Whether both may be there, if they have one name: in two architectures, each `same`, in one version."""
        if self.name != other.name:
            return True
        both = self.get("Multi-Arch"), other.get("Multi-Arch")
        return both == ("same", "same") and self.version == other.version and self.architecture != other.architecture


class Scenario:
    """A request, and packages."""

    def __init__(self, request, packages):
        self.request = request
        self.native = request["Architecture"]
        self.packages = [Package(place, fields, self.native) for place, fields in enumerate(packages)]
        self.asked, self.gone = (self.names(field) for field in ("Install", "Remove"))
        self.installed = {it.full_name for it in self.packages if it.says("Installed")}
        self.held = {it.full_name for it in self.packages if it.says("Hold")}
        self.with_candidate = {it.full_name for it in self.packages if it.says("APT-Candidate")}

    def says(self, *fields):
        return any(self.request.get(field) == "yes" for field in fields)

    def names(self, field):
        """The names of a field of the request, each with its architecture."""
        words = [word.partition(":") for word in self.request.get(field, "").split()]
        return {(name, self.native if where in ("", "all") else where) for name, _, where in words}

    def may_be_picked(self, package):
        """Whether an answer may have a package: an installed one, or the candidate of a name that may change. A name
        that is asked for has its candidate, if there is one."""
        name = package.full_name
        if name in self.gone:
            return False
        is_pinned = self.request.get("Strict-Pinning") == "no" or package.says("APT-Candidate")
        if name in self.asked:
            return is_pinned or package.says("Installed") and name not in self.with_candidate
        if package.says("Installed"):
            return True
        may_be_new = name in self.installed or not self.says("Forbid-New-Install", "Upgrade")
        return is_pinned and name not in self.held and may_be_new

    def must_stay(self, package):
        """Whether a version of the package's name has to be there."""
        if not package.says("Installed") or package.full_name in self.gone:
            return False
        return self.says("Forbid-Remove", "Upgrade") or package.says("Essential") or package.says("Hold")

    def needed(self):
        """The names of which a version has to be there."""
        return self.asked | {it.full_name for it in self.packages if self.must_stay(it)}

    def are_installable(self, there):
        """Whether these packages may be there together, and no others."""
        pairs = ((one, other) for place, one in enumerate(there) for other in there[:place])
        return all(one.fits(other) for one, other in pairs) and all(it.is_met(there) and it.is_free(there) for it in there)

    def is_answer(self, there):
        """Whether these packages are an answer."""
        return (
            all(map(self.may_be_picked, there))
            and self.needed() <= {it.full_name for it in there}
            and self.are_installable(there)
        )

    def kept(self):
        """The names that are to keep a version, if that can be."""
        automatic = {it.full_name for it in self.packages if it.says("Installed") and it.says("APT-Automatic")}
        return self.installed - self.gone - (automatic if self.says("Autoremove") else set())

    def keeps_more(self, there, names):
        """Whether these packages have all these names of what is to be kept, and another one."""
        return names < self.kept() & {it.full_name for it in there}

    def brings_in(self, one, other, before):
        """Whether a package depends on another one, or recommends it and is of a new name; and nothing before the other
        one meets that."""
        fields = ["Pre-Depends", "Depends"] + ["Recommends"] * (one.full_name not in self.installed)
        return any(
            one.is_group_met(group, [other]) and not one.is_group_met(group, before) for group in one.groups(*fields)
        )

    def without_cause(self, there):
        """Those of these packages that neither the request nor what is installed names, nor one before them brings in."""
        return [
            it
            for place, it in enumerate(there)
            if it.full_name not in self.installed | self.asked
            and not any(self.brings_in(one, it, there[:place]) for one in there[:place])
        ]

    def changed_in_vain(self, there):
        """Those of these packages that have another version than the installed one, where that one could be in their
        place. A name that is asked for may have another version, and in an upgrade of all each may."""
        if self.says("Upgrade-All", "Upgrade", "Dist-Upgrade"):
            return []
        unasked = [it for it in there if not it.says("Installed") and it.full_name not in self.asked]
        return [
            it
            for it in unasked
            for other in self.packages
            if other.says("Installed") and other.full_name == it.full_name
            and self.is_answer([other if one is it else one for one in there])
        ]
