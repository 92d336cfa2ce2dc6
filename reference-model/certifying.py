"""Certificates to test `replay` with: those of small indexes, by a plain search that learns clauses.

The search decides variables in turn. A conflict teaches that the decisions behind it can't stand together.
"""
import itertools

from certificates import FORBIDDEN, NONE_THERE
from indexes import said, span_text


class Encoding:
    """An index as clauses, each with its reason. Variables are told by words."""

    def __init__(self, index, has_pairs):
        self.index, self.numbers, self.clauses = index, {}, []
        for line, parent, spans, condition in index.all_needs():
            candidates = [self.picked(it) for it in index.among(spans)]
            for lists in condition or [[]]:
                heads = [self.held(span) for span in lists]
                self.add(line + NONE_THERE * (not candidates), parent, *(-it for it in heads), *candidates)
        for line, parent, limit in index.all_limits():
            for other in set(index.of_name(limit[0])) - set(index.among([limit])):
                self.add(line, parent, -self.picked(other))
        for word, words in FORBIDDEN.items():
            for version in index.marked[word]:
                self.add(words.format(said(version)), version)
        for name, locked in index.locked.items():
            for other in set(index.of_name(name)) - {locked}:
                self.add(f"{said(locked)} is locked", other)
        for name in index.versions:
            (self.add_pairs if has_pairs else self.add_ladder)(name, sorted(index.versions[name]))

    def number(self, words):
        return self.numbers.setdefault(words, len(self.numbers) + 1)

    def picked(self, version):
        return self.number(said(version))

    def held(self, span):
        """The variable that a set holds what is picked, and what it means."""
        is_new = span_text(span) not in self.numbers
        number = self.number(span_text(span))
        for version in self.index.among([span]) if is_new else ():
            self.add(None, version, number)
        return number

    def add(self, reason, parent, *literals):
        """Adds a clause, and to it that a parent, unless it is the request, isn't picked."""
        self.clauses.append((reason, [*([-self.picked(parent)] if parent else []), *literals]))

    def add_pairs(self, name, versions):
        for one, other in itertools.combinations(versions, 2):
            self.add(f"one version of {name}", (name, one), -self.picked((name, other)))

    def add_ladder(self, name, versions):
        """The same with sets that hold what is lower: of each version, and of one that is lower, one isn't picked."""
        for before, end in zip(versions, versions[1:]):
            lower = self.held((name, versions[0], end))
            self.add(f"one version of {name}", (name, end), -lower)
            if before != versions[0]:
                self.add(None, None, -self.held((name, versions[0], before)), lower)


class Search:
    """A search over clauses. `learnt` has those that it learnt; each is followed by the places of its antecedents."""

    def __init__(self, clauses, variables):
        self.clauses, self.variables, self.learnt = list(clauses), variables, []

    def is_satisfiable(self):
        decisions = []
        while True:
            values, conflict = self.propagated(decisions)
            if conflict is None:
                free = next((it for it in range(1, self.variables + 1) if it not in values), None)
                if free is None:
                    return True
                decisions.append(-free)
                continue
            used, behind = self.traced(values, conflict)
            learnt = [-it for it in decisions if it in behind]
            self.learnt.append((learnt, used))
            self.clauses.append(learnt)
            if not learnt:
                return False
            decisions = decisions[: decisions.index(-learnt[-1])]

    def propagated(self, decisions):
        """The values that follow, each with the place of its clause, and the place of a clause that is false."""
        values = {abs(it): (it, None) for it in decisions}
        places = [place for place, _ in enumerate(self.clauses)]
        while True:
            before = len(values)
            for place in places:
                free = [it for it in self.clauses[place] if abs(it) not in values]
                is_true = any(values.get(abs(it), (0,))[0] == it for it in self.clauses[place])
                if not free and not is_true:
                    return values, place
                if len(free) == 1 and not is_true:
                    values[abs(free[0])] = free[0], place
            if len(values) == before:
                return values, None

    def traced(self, values, conflict):
        """The places of the clauses that a conflict follows from, and the decisions."""
        used, decided, pending = set(), set(), [conflict]
        while pending:
            place = pending.pop()
            if place in used:
                continue
            used.add(place)
            for literal in self.clauses[place]:
                value, why = values[abs(literal)]
                if why is None:
                    decided.add(value)
                else:
                    pending.append(why)
        return used, decided


def certificate(index, first, has_pairs):
    """The lines of a certificate of an index whose request is in this line; none if the index has a solution. It has
    only the clauses that the last conflict follows from.
    """
    encoding = Encoding(index, has_pairs)
    search = Search([literals for _, literals in encoding.clauses], len(encoding.numbers))
    if search.is_satisfiable():
        return None
    begun, used = len(encoding.clauses), {len(search.clauses) - 1}
    for place, (_, antecedents) in reversed([*enumerate(search.learnt, begun)]):
        used |= antecedents if place in used else set()
    return written(encoding, first, [it for it in range(begun) if it in used],
                   [learnt for place, (learnt, _) in enumerate(search.learnt, begun) if place in used])


def written(encoding, first, places, learnt):
    """The lines of a certificate that has the clauses at these places."""
    lines = [*lines_behind(encoding, places, learnt)]
    return [f"c certificate {first} {len(lines) + 1}", *lines]


def lines_behind(encoding, places, learnt):
    """The lines behind the first one."""
    named = {abs(it) for one in [*learnt, *(encoding.clauses[place][1] for place in places)] for it in one}
    numbers = {old: new for new, old in enumerate(sorted(named), 1)}
    words = {number: text for text, number in encoding.numbers.items()}
    yield from (f"c var {new} {words[old]}" for old, new in numbers.items())
    yield f"p cnf {len(numbers)} {len(places)}"
    before = 0
    for place in places:
        reason, literals = encoding.clauses[place]
        if reason != before:
            yield f"c because {reason}" if reason else "c by definition"
        before = reason
        yield line_of(literals, numbers)
    yield f"c learnt {len(learnt)}"
    yield from (line_of(literals, numbers) for literals in learnt)


def line_of(literals, numbers):
    return " ".join(map(str, [*((1 if it > 0 else -1) * numbers[abs(it)] for it in literals), 0]))
