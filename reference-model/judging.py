"""Judges what pick_versions answers to an index, by trying every choice of versions."""
import re

from best import better_than, spare, unneeded
from indexes import said
from reading import Unreadable
from reasons import is_reason, spare_ones

# The last line of an answer that isn't shown to be the best by all wishes.
UP_TO = re.compile("the best by the first ([0-9]{1,20}) of ([0-9]{1,20}) wishes")
VERSION = re.compile("([!-~]+) ([!-~]+)")


def answers_in(text):
    """The answers to the indexes of a text."""
    return text.rstrip("\n").split("\n\n")


def is_none(answer):
    return answer.startswith("request:\nnone")


def fault_of(index, answer):
    """What is wrong with an answer to an index that can be read; none if it is right."""
    head, _, rest = answer.partition("\n")
    if head != "request:":
        return "it doesn't begin with the request"
    lines = rest.splitlines()
    return fault_of_none(index, lines[1:]) if is_none(answer) else fault_of_picked(index, lines)


def fault_of_none(index, reasons):
    solutions = index.solutions()
    if solutions:
        return f"there is a solution: {listed(solutions[0])}"
    if not is_reason(index, reasons):
        return "a reason isn't so, or they don't suffice"
    spare_lines = spare_ones(index, reasons)
    return f"these reasons are spare: {', '.join(spare_lines)}" if spare_lines else None


def fault_of_picked(index, lines):
    """What is wrong with the lines of versions. Behind them a line may say that they aren't shown to be the best."""
    is_shown = not (lines and UP_TO.fullmatch(lines[-1]))
    versions = [version_in(line, index.kind) for line in (lines if is_shown else lines[:-1])]
    if None in versions:
        return "a line is no version"
    picked = dict(versions)
    if len(picked) < len(versions):
        return "two versions are of one package"
    return fault_of_choice(index, picked) or (None if is_shown else "it isn't shown to be the best")


def version_in(line, kind):
    """The version of this kind that a line of an answer names; none if it names no version."""
    found = VERSION.fullmatch(line)
    try:
        return (found[1], kind.read(found[2], "version")) if found else None
    except Unreadable:
        return None


def fault_of_choice(index, picked):
    if not index.is_solution(picked):
        return "it is no solution"
    better = better_than(index, picked)
    if better is not None:
        return f"it isn't the best: {listed(better)} is better"
    faults = [f"{said(it)} is not needed" for it in unneeded(index, picked)]
    faults += [f"{said(it)} is spare" for it in spare(index, picked)]
    return ", ".join(sorted(faults)) or None


def listed(picked):
    return ", ".join(map(said, picked.items())) or "no version at all"
