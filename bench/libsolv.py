"""Answers an index by libsolv: `found` or `none`, the solver's processor seconds, and what is picked, line by line."""
import sys
import time

try:
    import solv
except ImportError:
    sys.exit("python3-solv is missing")


def relation(pool, words):
    name, _, bounds = words.partition(" ")
    first, _, end = bounds.partition("..")
    at_least = pool.rel2id(pool.str2id(name), pool.str2id(first), solv.REL_GT | solv.REL_EQ)
    below = pool.rel2id(pool.str2id(name), pool.str2id(end), solv.REL_LT)
    return pool.rel2id(at_least, below, solv.REL_WITH)


def union(pool, words):
    ids = [relation(pool, it.strip()) for it in words.split("|")]
    found = ids[0]
    for it in ids[1:]:
        found = pool.rel2id(found, it, solv.REL_OR)
    return found


def fill(pool, repo, line):
    """Adds a line's version, or that of the request, which has no number, and answers it."""
    words = line.replace(" limits ", "\0L").replace(" needs ", "\0N").split("\0")
    name, version = "request 1".split() if words[0] == "request" else words[0].split()
    solvable = repo.add_solvable()
    solvable.name, solvable.evr, solvable.arch = name, version, "all"
    solvable.add_deparray(solv.SOLVABLE_PROVIDES, pool.rel2id(pool.str2id(name), pool.str2id(version), solv.REL_EQ))
    for it in words[1:]:
        if it[0] == "N":
            solvable.add_deparray(solv.SOLVABLE_REQUIRES, union(pool, it[1:]))
            continue
        other, bounds = it[1:].split()
        first, end = bounds.split("..")
        for number, comparison in ((first, solv.REL_LT), (end, solv.REL_GT | solv.REL_EQ)):
            outside = pool.rel2id(pool.str2id(other), pool.str2id(number), comparison)
            solvable.add_deparray(solv.SOLVABLE_CONFLICTS, outside)
    return solvable


def main():
    pool = solv.Pool()
    pool.setarch("x86_64")
    repo = pool.add_repo("index")
    asking, *_ = [fill(pool, repo, line) for line in sys.stdin.read().splitlines()]
    pool.createwhatprovides()
    begun = time.process_time()
    solver = pool.Solver()
    problems = solver.solve([pool.Job(solv.Job.SOLVER_INSTALL | solv.Job.SOLVER_SOLVABLE, asking.id)])
    seconds = time.process_time() - begun
    print("none" if problems else "found", seconds)
    for solvable in () if problems else solver.transaction().newsolvables():
        if solvable != asking:
            print(solvable.name, solvable.evr)


main()
