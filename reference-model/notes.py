"""The lines that annotate a script, or an index and its answer."""
from dataclasses import dataclass, field


@dataclass
class Notes:
    """Lines that annotate, and whether all that they tell of is right."""

    lines: list = field(default_factory=list)
    is_right: bool = True

    def add(self, line, is_so=True):
        self.lines.append(line)
        self.is_right &= is_so


def counted(count, what):
    return f"{count} {what}{'s' * (count != 1)}"


def shown(line):
    """A line's bytes as text, with `?` for what is no printed character of ASCII, nor a blank."""
    return "".join(chr(byte) if 32 <= byte <= 126 else "?" for byte in line)
