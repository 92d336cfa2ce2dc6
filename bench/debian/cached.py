"""What was read of a large `Packages` file, for the next run: in a folder of the user's among the temporary files."""
import hashlib
import json
import os
import tempfile

from archive import FIELDS, Archive, Fault, read_fields, read_text

# Smaller files are read anew.
LARGE = 1 << 20
# So many files are kept, those that were written last.
KEPT = 4


def folder():
    """The user's own folder, or none if it can't be had."""
    path = os.path.join(tempfile.gettempdir(), f"nivolakku-debian-{os.getuid()}")
    try:
        os.makedirs(path, mode=0o700, exist_ok=True)
        state = os.lstat(path)
    except OSError:
        return None
    return path if state.st_uid == os.getuid() and not state.st_mode & 0o022 and not os.path.islink(path) else None


def key_of(*paths):
    """What changes if one of these files does: their names, sizes and times."""
    states = [(os.path.abspath(path), os.stat(path).st_size, os.stat(path).st_mtime_ns) for path in paths]
    return hashlib.sha256(repr((FIELDS, states)).encode()).hexdigest()[:32]


def stored(name, write):
    """The path of a file that is kept under this name, which `write` writes to a path if there is none; none if it
    can't be kept.
    """
    place = folder()
    if not place:
        return None
    path = os.path.join(place, name)
    if not os.path.isfile(path):
        write(f"{path}.{os.getpid()}")
        os.replace(f"{path}.{os.getpid()}", path)
        for old in sorted(os.scandir(place), key=lambda it: -it.stat().st_mtime_ns)[KEPT:]:
            os.unlink(old.path)
    return path


def read_archive(path):
    """The archive of a `Packages` file."""
    try:
        if os.path.getsize(path) < LARGE:
            return Archive(read_fields(read_text(path)))
        kept = stored(f"{key_of(path)}.json", lambda to: write_json(to, list(read_fields(read_text(path)))))
        if kept:
            with open(kept) as file:
                return Archive(json.load(file))
    except (OSError, ValueError):
        pass
    return Archive(read_fields(read_text(path)))


def write_json(path, value):
    with open(path, "w") as file:
        json.dump(value, file)
