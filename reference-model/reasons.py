"""Judges why there is no solution: whether what is written is what the index says, and whether nothing can meet it all.

A version is a name and what stands behind it. A clause is a dict of versions, of which one has to be picked where it has true, or
not to be picked where it has false.
"""
import itertools

from indexes import said


def is_reason(index, lines):
    """Whether the index says each of these lines, and no choice meets all of them."""
    return not unsaid(index, lines) and is_enough(index, lines)


def unsaid(index, lines):
    """Those of these lines that the index doesn't say."""
    said_lines = {line for line, _ in said_by(index)}
    return [line for line in lines if line not in said_lines]


def is_enough(index, lines):
    """Whether no choice meets all of these lines. Two versions of a package may be picked together unless a line says
    otherwise.
    """
    clauses = [clause for line, of_line in said_by(index) if line in lines for clause in of_line]
    return not can_be_met([clause for clause in clauses if clause is not None])


def spare_ones(index, lines):
    """Those of these lines without which the others are enough."""
    return [line for line in lines if is_enough(index, [other for other in lines if other != line])]


def said_by(index):
    """Each line that the index says, with its clauses, which are made when they are read. Two needs may be told by one
    line.
    """
    for line, parent, spans, condition in index.all_needs():
        candidates = index.among(spans)
        yield line + ("" if candidates else ", and there is none"), need_clauses(index, parent, condition, candidates)
    for line, parent, limit in index.all_limits():
        outside = set(index.of_name(limit[0])) - set(index.among([limit]))
        yield line, [clause_of([parent, version], []) for version in outside]
    for version in index.marked["excluded"]:
        yield f"{said(version)} is excluded", [clause_of([version], [])]
    for version in index.marked["unknown"]:
        yield f"what {said(version)} needs is unknown", [clause_of([version], [])]
    for name, locked in index.locked.items():
        others = set(index.of_name(name)) - {locked}
        yield f"{said(locked)} is locked", [clause_of([other], []) for other in others]
    for name in index.versions:
        yield f"one version of {name}", pair_clauses(index.of_name(name))


def need_clauses(index, parent, condition, candidates):
    for heads in heads_of(index, condition):
        yield clause_of([parent, *heads], candidates)


def pair_clauses(versions):
    for pair in itertools.combinations(versions, 2):
        yield clause_of(pair, [])


def heads_of(index, condition):
    """The lists of versions that make a condition hold; where there is none, the empty list."""
    for spans in condition or [[]]:
        yield from itertools.product(*(index.among([span]) for span in spans))


def clause_of(picked, wanted):
    """That where all of the first are picked, one of the others is; none where that is so anyway. The root is None."""
    clause = {version: False for version in picked if version}
    return None if any(version in clause for version in wanted) else clause | dict.fromkeys(wanted, True)


def can_be_met(clauses):
    """Whether values meet all clauses: by trying both values of a version, and what follows."""
    while True:
        if {} in clauses:
            return False
        unit = next((clause for clause in clauses if len(clause) == 1), None)
        if unit is None:
            break
        clauses = given(clauses, *next(iter(unit.items())))
    if not clauses:
        return True
    version = next(iter(clauses[0]))
    return any(can_be_met(given(clauses, version, value)) for value in (False, True))


def given(clauses, version, value):
    """What is left of the clauses where the version has the value."""
    return [
        {other: wanted for other, wanted in clause.items() if other != version}
        for clause in clauses
        if clause.get(version) is not value
    ]
