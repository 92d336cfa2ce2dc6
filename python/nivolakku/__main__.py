"""Picks versions from an index, and prints them.

    python3 -m nivolakku FILE       prints NAME VERSION, a line each

The exit status is 0 if versions are picked, and else 1, with the reasons on standard error.
"""
import sys

import nivolakku


def main(words):
    if {"-h", "--help"} & {*words}:
        print(__doc__.strip())
        return 0
    if len(words) != 1:
        return "python3 -m nivolakku takes a file: --help tells the usage"
    try:
        with open(words[0], "rb") as file:
            picked = nivolakku.pick(file.read())
    except nivolakku.LibraryMissing as fault:
        return str(fault)
    except OSError as fault:
        return f"{fault.filename}: {fault.strerror}"
    except nivolakku.Unanswered as fault:
        return str(fault)
    for version in picked:
        print(*version)
    return 0


if __name__ == "__main__":
    sys.exit(main(sys.argv[1:]))
