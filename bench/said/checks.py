"""What `check` writes of faults, and the line of what is left out for them, by docs/FORMATS.md.
Behind the faults stands what it writes of warnings.
"""
import collections
import re

from said import feeds, warned
from said.left import BORNE

# How many faults of a number are told one by one.
MOST_TOLD = 10_000
# The commands that answer over the day of a feed, and say what is left out of it.
OF_A_DAY = (
    "direct",
    "ask",
    "profile",
    "latest",
    "reach",
    "times",
    "matrix",
    "verify",
    "late",
    "build",
)


def text_of(faults):
    """What is written of faults, each as it is shown."""
    counts, lines = collections.Counter(), []
    for fault in faults:
        number = int(fault.partition(" ")[0])
        counts[number] += 1
        if counts[number] <= MOST_TOLD:
            lines.append(fault)
    for number, count in sorted(counts.items()):
        if count > MOST_TOLD:
            lines.append(f"and {count - MOST_TOLD} more of number {number}")
    return "".join(f"{line}\n" for line in (*lines, f"faults {len(faults)}"))


def parted(text):
    """What a text says of faults, and of warnings."""
    found = re.search(r"^faults \d+\n", text, re.MULTILINE)
    return (text[: found.end()], text[found.end() :]) if found else (text, "")


def told_in(text):
    """The faults that a text tells one by one, each as it is shown; or None if no such text is
    written.
    """
    text, warnings = parted(text)
    if not warned.has_form(warnings):
        return None
    *lines, last = text.split("\n")[:-1] or [""]
    more = {}
    while lines and not feeds.is_fault(lines[-1]):
        found = re.fullmatch(r"and ([1-9]\d*) more of number (\d+)", lines.pop())
        if not found or int(found[2]) >= min(more, default=99):
            return None
        more[int(found[2])] = int(found[1])
    if not all(map(feeds.is_fault, lines)):
        return None
    counts = collections.Counter(int(line.partition(" ")[0]) for line in lines)
    is_full = all(counts[number] == MOST_TOLD for number in more)
    is_all = last == f"faults {len(lines) + sum(more.values())}" and text.endswith("\n")
    if not is_full or not is_all or max(counts.values(), default=0) > MOST_TOLD:
        return None
    return lines


def is_borne(fault):
    """Whether a row bears a fault, which is given as it is shown."""
    return int(fault.partition(" ")[0]) in BORNE


def left_out(faults):
    """The line on standard error for what is left out, or nothing."""
    counts = collections.Counter(fault.split(" ")[2] for fault in faults)
    parts = []
    for file in feeds.COLUMNS:
        if counts[file]:
            rows = "1 row" if counts[file] == 1 else f"{counts[file]} rows"
            parts.append(f"{'trips for ' * (file == 'stop_times.txt')}{rows} of {file}")
    return f"router: left out {', '.join(parts)} (see check)\n" if parts else ""
