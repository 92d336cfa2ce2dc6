"""Scenarios whose answers were worked out by hand.

A row has the request's fields, a line for each package, and the answer: `+2 -3` if the package with the id 2 is
installed and the one with the id 3 removed, or the message of the error. A package's id is its place among the lines. A
line is `name architecture version`, and further fields behind it.
"""

ROWS = [
    # a dependency, the first alternative, what is recommended
    (
        "Install: a:amd64",
        [
            "a all 1 APT-Candidate: yes; Depends: b (>= 2) | c, d; Recommends: e | f",
            "b amd64 1 APT-Candidate: yes",
            "c amd64 1 APT-Candidate: yes",
            "d amd64 1 Installed: yes",
            "e amd64 1 APT-Candidate: yes",
            "f amd64 1 APT-Candidate: yes",
        ],
        "+0 +2 +4",
    ),
    # the first alternative, though it recommends something
    (
        "Install: a:amd64",
        [
            "a all 1 APT-Candidate: yes; Depends: b | c",
            "b amd64 1 APT-Candidate: yes; Recommends: d",
            "c amd64 1 APT-Candidate: yes",
            "d amd64 1 APT-Candidate: yes",
        ],
        "+0 +1 +3",
    ),
    # an installed package brings in nothing that it recommends; nor does a new one, if a dependency meets that
    (
        "Install: a:amd64",
        [
            "a amd64 1 APT-Candidate: yes; Depends: b; Recommends: d | c",
            "b amd64 1 APT-Candidate: yes; Depends: c",
            "c amd64 1 APT-Candidate: yes",
            "d amd64 1 APT-Candidate: yes; Conflicts: b",
            "e amd64 1 Installed: yes; Recommends: f",
            "f amd64 1 APT-Candidate: yes",
        ],
        "+0 +1 +2",
    ),
    # what is provided with a version, and what without
    (
        "Install: a:amd64",
        [
            "a amd64 1 APT-Candidate: yes; Depends: v (>= 2)",
            "b amd64 9 APT-Candidate: yes; Provides: v",
            "c amd64 1 APT-Candidate: yes; Provides: v (= 2.1), w",
        ],
        "+0 +2",
    ),
    # other architectures
    (
        "Install: a:amd64",
        [
            "a amd64 1 APT-Candidate: yes; Depends: b, c:any, d:i386",
            "b i386 1 APT-Candidate: yes; Multi-Arch: foreign",
            "c i386 1 APT-Candidate: yes; Multi-Arch: allowed",
            "d i386 1 APT-Candidate: yes",
            "d amd64 1 APT-Candidate: yes",
        ],
        "+0 +1 +2 +3",
    ),
    (
        "Install: a:i386",
        [
            "a amd64 2 Installed: yes; Multi-Arch: same",
            "a i386 1 APT-Candidate: yes; Multi-Arch: same",
            "a amd64 1 APT-Candidate: yes; Multi-Arch: same",
        ],
        "+1 +2",
    ),
    # one library in two architectures, which conflicts with what it provides
    (
        "Install: a:i386",
        [
            "a amd64 1 Installed: yes; Multi-Arch: same; Provides: v; Conflicts: v",
            "a i386 1 APT-Candidate: yes; Multi-Arch: same; Provides: v; Conflicts: v",
        ],
        "+1",
    ),
    # `:any` is met by what is allowed to meet it
    (
        "Install: a:amd64",
        [
            "a amd64 1 APT-Candidate: yes; Depends: b:any | c",
            "b amd64 1 APT-Candidate: yes",
            "c amd64 1 APT-Candidate: yes",
        ],
        "+0 +2",
    ),
    # what is asked for has its candidate, and may be new in an upgrade
    ("Install: a:amd64", ["a amd64 1 Installed: yes", "a amd64 2 APT-Candidate: yes"], "+1"),
    (
        "Install: b:amd64\nUpgrade: yes",
        ["a amd64 1 Installed: yes", "b amd64 1 APT-Candidate: yes", "c amd64 1 APT-Candidate: yes"],
        "+1",
    ),
    # a conflict removes; a hold, and what is essential, stays
    (
        "Install: a:amd64",
        ["a amd64 1 APT-Candidate: yes; Conflicts: v", "b amd64 1 Installed: yes; Provides: v"],
        "+0 -1",
    ),
    (
        "Upgrade-All: yes",
        [
            "a amd64 1 Installed: yes; Hold: yes",
            "a amd64 2 APT-Candidate: yes",
            "b amd64 1 Installed: yes",
            "b amd64 2 APT-Candidate: yes",
            "b amd64 3",
        ],
        "+3",
    ),
    ("Remove: a:amd64", ["a amd64 1 Installed: yes", "b amd64 1 Installed: yes; Depends: a"], "-0 -1"),
    (
        "Remove: a:amd64",
        ["a amd64 1 Installed: yes", "b amd64 1 Installed: yes; Depends: a; Essential: yes"],
        " requested: b\n b 1 needs a, which can't be picked",
    ),
    # where something has to go, all else stays: two that need each other, and what recommends what goes
    (
        "Install: a:amd64\nRemove: e:amd64",
        [
            "a amd64 1 APT-Candidate: yes; Conflicts: b",
            "b amd64 1 Installed: yes",
            "c amd64 1 Installed: yes; Depends: d",
            "d amd64 1 Installed: yes; Depends: c; Recommends: b",
            "e amd64 1 Installed: yes",
            "f amd64 1 Installed: yes; Depends: b | e",
        ],
        "+0 -1 -4 -5",
    ),
    # automatic packages
    (
        "Autoremove: yes",
        [
            "a amd64 1 Installed: yes; Recommends: b",
            "b amd64 1 Installed: yes; APT-Automatic: yes",
            "c amd64 1 Installed: yes; APT-Automatic: yes",
        ],
        "-2",
    ),
    # no new packages
    (
        "Upgrade: yes",
        [
            "a amd64 1 Installed: yes",
            "a amd64 2 APT-Candidate: yes; Depends: b",
            "b amd64 1 APT-Candidate: yes",
            "c amd64 1 Installed: yes",
            "c amd64 2 APT-Candidate: yes",
        ],
        "+4",
    ),
    # no packages
    ("Install:", [], ""),
]

REQUEST = "Request: EDSP 0.5\nArchitecture: amd64\n"

# no whole scenarios: they are answered by an error
REFUSED = [
    "",
    "\n\n",
    REQUEST,
    REQUEST + "\nPackage: a\nArchitecture: amd64\nVersion: 1\nAPT-ID: 1\n",
    REQUEST + "\n" + REQUEST + "\n",
    "Package: a\nArchitecture: amd64\nVersion: 1\nAPT-ID: 1\n\n",
    "Request: EIPP 0.1\nArchitecture: amd64\n\n",
    "\0\u0001:\u007f\n\n",
]


def text_of(request, lines):
    """The scenario of a row."""
    stanzas = [REQUEST + request]
    for place, line in enumerate(lines):
        name, architecture, version, *others = line.split(" ", 3)
        fields = [f"Package: {name}", f"Architecture: {architecture}", f"Version: {version}", f"APT-ID: {place}"]
        stanzas.append("\n".join(fields + [field for it in others for field in it.split("; ")]))
    return "".join(f"{stanza}\n\n" for stanza in stanzas)


def short(answer):
    """An answer as rows have it."""
    signs = {"Install": "+", "Remove": "-"}
    heads = [line.split(": ", 1) for line in answer.splitlines() if ": " in line and not line.startswith(" ")]
    message = "\n".join(line for line in answer.splitlines() if line.startswith(" "))
    return message or " ".join(signs[head] + value for head, value in heads if head in signs)


def faults(answered):
    """What is wrong with the answers of a function from texts to texts; nothing if they are right."""
    for request, lines, said in ROWS:
        answer = answered(text_of(request, lines))
        if short(answer) != said:
            yield f"{text_of(request, lines)}is answered\n{answer}and not by {said}\n"
    for text in REFUSED:
        answer = answered(text)
        if not answer.startswith("Error: "):
            yield f"{text!r} is answered\n{answer}and not by an error\n"
