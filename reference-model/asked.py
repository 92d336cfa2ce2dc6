"""What the scripts of this folder are asked on the command line."""
import os
import sys

CRATES = os.path.join(os.path.dirname(os.path.dirname(os.path.abspath(__file__))), "crates")


def ran(main, about):
    """Calls a script's main with the words of the command line, and answers its exit status. With --help it prints what
    the script is about instead. A file or a program that isn't there is told in a sentence, and so is a program that
    writes no text.
    """
    words = sys.argv[1:]
    if {"-h", "--help"} & {*words}:
        print(about.strip())
        return 0
    try:
        return main(words)
    except OSError as fault:
        if fault.filename is None:
            raise
        return f"{fault.filename}: {fault.strerror}"
    except UnicodeDecodeError as fault:
        return f"what was read is no text: {fault}"


def numbers_and_program(words, crate, has_unproved=False):
    """Two numbers, and a program: the crate's unless another one is named, or `--unproved`, of a script that has it."""
    if len(words) not in (2, 3) or not all(it.isdecimal() for it in words[:2]):
        sys.exit("two numbers are wanted, and perhaps a program: --help tells the usage")
    program = words[2] if len(words) > 2 else f"{CRATES}/{crate}/out/{crate}"
    is_unproved = has_unproved and program == "--unproved"
    if not is_unproved and not (os.path.isfile(program) and os.access(program, os.X_OK)):
        where = f"`rt run < stdin` in crates/{crate} proves and builds it"
        sys.exit(f"{program} is no program: {where}; or name another one" + ", or give --unproved" * has_unproved)
    return int(words[0]), int(words[1]), program
