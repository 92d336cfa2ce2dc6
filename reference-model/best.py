"""Judges a solution: whether it is the best one, which of its versions aren't needed, and which are spare.

A wish is a list of versions, the best first. The rank of a choice by a wish is how many of the wish's versions come
before the first one that is picked; all, if none is. A solution is better than another one if its ranks, in the order
of the wishes, are lower at the first difference.
"""
from indexes import holds, is_among


def wishes_of(index):
    """A wish for each requirement of the request that has no condition: the versions of its ranges, in turn. Those of
    packages that the request needs anyway come before the others.
    """
    requirements = [spans for spans, condition in index.wanted if not condition]
    anyway = {spans[0][0] for spans in requirements if len(spans) == 1}
    for spans in requirements:
        offers = [version for span in spans for version in best_first(index, span)]
        yield [it for it in offers if it[0] in anyway] + [it for it in offers if it[0] not in anyway]


def best_first(index, span):
    """The versions of a range, those of later lines first, but the favored one before all."""
    favored = index.favored.get(span[0])
    return sorted(reversed(index.among([span])), key=lambda version: version != favored)


def rank(wish, picked):
    return next((place for place, (name, version) in enumerate(wish) if picked.get(name) == version), len(wish))


def ranks_of(index, choices):
    """The ranks of each choice, by all wishes."""
    wishes = list(wishes_of(index))
    return [[rank(wish, picked) for wish in wishes] for picked in choices]


def better_than(index, picked, count=None):
    """The best solution by all wishes, or by the first ones, if it is better; otherwise none."""
    solutions = index.solutions()
    ranks, *others = (ranks[:count] for ranks in ranks_of(index, [picked, *solutions]))
    lowest, best = min(zip(others, solutions), key=lambda it: it[0])
    return best if lowest < ranks else None


def unneeded(index, picked):
    """The picked versions that neither the request needs, nor a picked one that is needed itself."""
    needed, needs = set(), list(index.wanted)
    while needs:
        spans, condition = needs.pop()
        is_due = not condition or holds(picked, condition)
        offered = {version for version in picked.items() if is_due and is_among(version, spans)}
        needs += (need for version in offered - needed for need in index.asks[version][0])
        needed |= offered
    return set(picked.items()) - needed


def spare(index, picked):
    """The picked versions that can be left out: what is left is a solution, and has the same ranks."""
    for left_out in picked.items():
        left = dict(version for version in picked.items() if version != left_out)
        ranks, others = ranks_of(index, [picked, left])
        if index.is_solution(left) and ranks == others:
            yield left_out
