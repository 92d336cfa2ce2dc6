"""Requests that are drawn from apt's index, as the words behind `apt-get`."""
import re

# What says in a relation which versions and architectures are meant.
BOUND = re.compile(r"\([^)]*\)|:[a-z0-9]+")


def conflicts(universe, free):
    """Pairs of names of which the first one's candidate names the second as a conflict or breaks it."""
    for fields in universe.packages:
        if fields.get("APT-Candidate") == "yes" and fields["Package"] in free:
            said = BOUND.sub("", f"{fields.get('Conflicts', '')},{fields.get('Breaks', '')}")
            for name in map(str.strip, said.split(",")):
                if name in free and name != fields["Package"]:
                    yield fields["Package"], name


def requests(drawn, universe, count, has_versions=True):
    """So many requests. What is held isn't asked for, and what has to stay isn't removed."""
    free = universe.by_name.keys() - universe.held
    names = sorted(free)
    installed = sorted({it["Package"] for it in universe.installed()} - universe.staying)
    several = [name for name in names if len(universe.by_name[name]) > 1]
    versions = [f"{name}={version}" for name in several for version in universe.by_name[name]]
    pairs = sorted(set(conflicts(universe, free)))

    def some(words):
        return drawn.sample(words, drawn.choice([1, 1, 1, 2, 3]))

    kinds = {
        lambda: ["install", *some(names)]: 5,
        lambda: ["install", drawn.choice(versions)]: int(has_versions),
        lambda: ["install", *some(names), f"{drawn.choice(installed)}-"]: 2,
        lambda: ["remove", *some(installed)]: 1,
        lambda: ["remove", "--auto-remove", *some(installed)]: 1,
        lambda: ["install", *drawn.choice(pairs)]: 2,
    }
    for kind in drawn.choices([*kinds], weights=kinds.values(), k=count):
        yield kind()
