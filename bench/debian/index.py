"""An index of example_index, and clauses in the form of DIMACS, of what a request asks for."""
import functools
import itertools
import re

NAME = re.compile(r"[a-z0-9][a-z0-9+.-]*")
# What an index reads as something else than a name.
TAKEN = {"request", "needs", "limits", "favored", "locked", "if", "and", "or"}


def word(name):
    """A package's name as a word of an index. What Debian's policy allows in no name, and what an index reads as
    something else, has a `%` and its bytes there.
    """
    return name if NAME.fullmatch(name) and name not in TAKEN else "%" + name.encode().hex()


class Index:
    """What a request asks for, and the solvables that may be picked: all, or those that the request reaches by needs,
    whichever alternatives are taken. What serves among these serves among all; and of what serves among all, that part
    serves which is among these, since they need nothing else.
    """

    def __init__(self, archive, request, is_whole=False):
        self.archive, self.request = archive, request
        self.wanted = [archive.wanted(name) for name in request.split(",")]
        self.solvables = archive.solvables() if is_whole else self.reached()
        self.solvables.sort(key=lambda it: (it.name, it.rank))

    def reached(self):
        found = dict.fromkeys(itertools.chain(*self.wanted))
        left = list(found)
        while left:
            for solvable in itertools.chain(*self.archive.needs(left.pop())):
                if solvable not in found:
                    found[solvable] = None
                    left.append(solvable)
        return list(found)

    @functools.cached_property
    def places(self):
        """The number of each solvable, from 1."""
        return {solvable: place for place, solvable in enumerate(self.solvables, 1)}

    def forbidden(self, solvable):
        return [it for it in self.archive.forbidden(solvable) if it in self.places]

    def needs(self):
        """All that is needed, of the request first."""
        return [*self.wanted, *itertools.chain(*map(self.archive.needs, self.solvables))]

    def text(self):
        """The lines of the index, of which the first one is the request."""
        lines = [["request", *map(need, self.wanted)]]
        for solvable in self.solvables:
            needs = map(need, self.archive.needs(solvable))
            lines.append([f"{word(solvable.name)} {solvable.rank}", *needs, *self.limits(solvable)])
        return "".join(" ".join(words) + "\n" for words in lines)

    def limits(self, solvable):
        """A range of each package that has a forbidden version, and what is forbidden within that range."""
        by_name = itertools.groupby(sorted(self.forbidden(solvable), key=lambda it: it.name), lambda it: it.name)
        for name, group in by_name:
            forbidden = {it.rank for it in group}
            allowed = [it.rank for it in self.archive.packages[name] if it.rank not in forbidden]
            low, high = (allowed[0], allowed[-1] + 1) if allowed else (0, 0)
            between = forbidden.intersection(range(low, high))
            if between != forbidden:
                yield f"limits {word(name)} {low}..{high}"
            for rank in sorted(between):
                yield f"needs {word(name)} 0..0 if {word(name)} {rank}..{rank + 1}"

    def clauses(self):
        """The same as clauses: a literal is a solvable's place, or less than 0 where it isn't picked."""
        places = self.places
        for union in self.wanted:
            yield [places[it] for it in union]
        for solvable, place in places.items():
            for union in self.archive.needs(solvable):
                yield [-place, *(places[it] for it in union)]
            for it in self.forbidden(solvable):
                yield [-place, -places[it]]
        for _, group in itertools.groupby(self.solvables, lambda it: it.name):
            for one, other in itertools.combinations(group, 2):
                yield [-places[one], -places[other]]

    def dimacs(self):
        clauses = list(self.clauses())
        lines = [f"p cnf {len(self.solvables)} {len(clauses)}"]
        lines += [" ".join(map(str, [*clause, 0])) for clause in clauses]
        return "\n".join(lines) + "\n"


def need(union):
    """A need. One that nothing meets names as a package what it asks for."""
    return "needs " + (" | ".join(ranges(union)) or f"{word(union.text)} 0..0")


def ranges(solvables):
    """Solvables, best first, as ranges: neighbours in rank that follow each other are one."""
    first = last = None
    for solvable in [*solvables, None]:
        if solvable and last and solvable.name == last.name and solvable.rank == last.rank - 1:
            last = solvable
            continue
        if last:
            yield f"{word(last.name)} {last.rank}..{first.rank + 1}"
        first = last = solvable


def table(indexes):
    """A line for each request, in turn, and one for each solvable of the indexes: its name and rank there, and its own
    name and version.
    """
    for index in indexes:
        yield f"request {index.request}"
    for solvable in dict.fromkeys(itertools.chain(*(index.solvables for index in indexes))):
        yield f"{word(solvable.name)} {solvable.rank} {solvable}"
