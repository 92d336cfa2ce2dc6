"""What an index says, and its solutions.

A version is a name and what stands behind it: a number, or a SemVer version. A choice is a dict: for the name of each
picked version what stands behind it.
"""
from dataclasses import dataclass

from versions import Numbers

# The words that mark a version.
MARKS = ("favored", "locked", "excluded", "unknown")


@dataclass
class Index:
    """What is requested, and each version with its needs and limits, in the order of the lines. A need is a list of
    ranges of which one is enough, and perhaps a condition: lists of ranges, of which one has to hold whole. Of several
    favored or locked versions of a package the last one counts. What is excluded or unknown has no needs, no limits,
    and is neither.
    """

    wanted: list  # the needs of the request
    asks: dict  # for each version its needs and its limits
    marked: dict  # for each word that marks versions the set of these
    kind: type = Numbers  # how its versions are written

    def __post_init__(self):
        self.versions = {}
        for name, number in self.asks:
            self.versions.setdefault(name, []).append(number)
        self.favored, self.locked = self.last_of_each("favored"), self.last_of_each("locked")
        self.barred = self.marked["excluded"] | self.marked["unknown"]

    def last_of_each(self, word):
        """Of each package the last version that is marked by the word."""
        return {version[0]: version for version in self.asks if version in self.marked[word]}

    def all_needs(self):
        """Each need, with the line that tells it and who needs it: a version, or none for the request."""
        for parent, (needs, _) in [(None, (self.wanted, [])), *self.asks.items()]:
            for need in needs:
                yield f"{said(parent)} {told_text(need)}", parent, *need

    def all_limits(self):
        for parent, (_, limits) in self.asks.items():
            for limit in limits:
                yield f"{said(parent)} limits {span_text(limit)}", parent, limit

    def of_name(self, name):
        return [(name, version) for version in self.versions.get(name, ())]

    def among(self, spans):
        """The versions that one of the ranges has, each once: those of a range in the order of the lines."""
        return [*dict.fromkeys(it for span in spans for it in self.of_name(span[0]) if is_among(it, [span]))]

    def is_allowed(self, version):
        """Whether there is such a version, which is neither excluded nor unknown, and whose package isn't locked to
        another one.
        """
        is_locked_out = self.locked.get(version[0], version) != version
        return version in self.asks and version not in self.barred and not is_locked_out

    def choices(self):
        """Each choice of an allowed version or none of each package, if it respects the limits. One that doesn't is
        dropped early: no other version mends it.
        """
        choices = [{}]
        for name in self.versions:
            own = [{name: version[1]} for version in self.of_name(name) if self.is_allowed(version)]
            longer = (choice | one for choice in choices for one in own)
            choices += [choice for choice in longer if self.respects_limits(choice)]
        return choices

    def solutions(self):
        """Every solution: each choice is tried."""
        return [choice for choice in self.choices() if self.meets_needs(choice)]

    def is_solution(self, picked):
        return all(map(self.is_allowed, picked.items())) and self.respects_limits(picked) and self.meets_needs(picked)

    def respects_limits(self, picked):
        limits = (limit for version in picked.items() for limit in self.asks[version][1])
        return all(limit[0] not in picked or has(picked, limit) for limit in limits)

    def meets_needs(self, picked):
        needs = (need for version in picked.items() for need in self.asks[version][0])
        return all(is_met(picked, *need) for of in (self.wanted, needs) for need in of)


def is_among(version, spans):
    return any(has(dict([version]), span) for span in spans)


def said(version):
    return "{} {}".format(*version) if version else "request"


def is_met(picked, spans, condition):
    return any(has(picked, span) for span in spans) or bool(condition and not holds(picked, condition))


def holds(picked, condition):
    return any(all(has(picked, span) for span in spans) for spans in condition)


def has(picked, span):
    name, first, end = span
    return name in picked and first <= picked[name] < end


def span_text(span):
    return "{} {}..{}".format(*span)


def need_text(need):
    spans, condition = need
    wanted = " | ".join(map(span_text, spans))
    return "needs " + wanted + (" if " + condition_text(condition) if condition else "")


def told_text(need):
    """As a need is written if there is no solution: conditions that are joined aren't spelled out."""
    spans, condition = need
    is_joined = condition and sum(map(len, condition)) > 1
    return need_text((spans, None)) + " under a condition" if is_joined else need_text(need)


def condition_text(condition):
    return " or ".join(" and ".join(map(span_text, spans)) for spans in condition)
