"""Feeds of shapes that are made to cost time.

Writes each shape at one size, at twice and at four times that size, and runs over it the command
that the shape makes costly. Prints status and first line, the processor seconds of each size, by
how much they grow, and what `direct`, which only reads, takes over the largest one, up to the first
fault if it has one. Time that grows with the bytes doubles from size to size. With `--most` or
`--reading`, names on standard error the shapes that grow by more, or that take more beside reading,
and ends with status 1. Shapes of keys that collide need a C compiler.
"""
import argparse
import os
import sys
import tempfile

from feeds.shapes import GROUPS, SHAPES
from harness import DAY, Run, Table, commit_of, count, known, megabytes_of, router

# What takes less seconds than this tells nothing of growth.
LEAST = 0.05


def add_arguments(parser):
    names = f"of {' '.join([*SHAPES, *GROUPS])} (else all)"
    parser.add_argument("names", metavar="NAME", nargs="*", help=names)
    larger = "makes all sizes so many times as great (else 1)"
    parser.add_argument("--scale", type=scale, default=1, help=larger)
    parser.add_argument("--most", type=scale, help="how many times as long twice the size may take")
    reading = "how many times as long as reading the largest size may take"
    parser.add_argument("--reading", type=scale, help=reading)
    limit = "seconds of processor time after which a run ends (else 60)"
    parser.add_argument("--limit", type=count, default=60, help=limit)


def scale(text):
    try:
        found = float(text)
    except ValueError:
        found = 0
    if not 0 < found < 1000:
        raise argparse.ArgumentTypeError(f"{text} is no number above 0")
    return found


def words_for(command, folder):
    """The words of a command of that name."""
    ask = [DAY, "A", "B", "08:00:00"]
    times = ["08:00:00", "08:00:00", "60"]
    return {
        "direct": ["direct", folder, *ask],
        "days": ["--days", "3", "direct", folder, *ask],
        "ask": ["ask", folder, *ask],
        "plain": ["--plain", "ask", folder, *ask],
        "profile": ["profile", folder, *ask, "99:59:59"],
        "latest": ["latest", folder, *ask[:3], "75:59:59"],
        "reach": ["reach", folder, DAY, "A", "08:00:00"],
        "times": ["times", folder, DAY, "A", *times],
        "station": ["--station", "60", "direct", folder, *ask],
        "close": ["--close", "direct", folder, *ask],
        "lenient": ["--lenient", "direct", folder, *ask],
        "check": ["check", folder, DAY],
        "build": ["build", folder, DAY],
        "build days": ["--days", "3", "build", folder, DAY],
        "late": ["late", folder, DAY, os.path.join(folder, "late"), *ask[1:]],
        "serve": ["serve", f"{folder}@{DAY}"],
        "live": ["live", f"{folder}@{DAY}"],
        "verify": ["verify", folder, *ask],
        "verify json": ["--json", "verify", folder, *ask],
        "matrix": ["matrix", folder, DAY, "-", *times],
        "matrix csv": ["--csv", "matrix", folder, DAY, "-", *times],
    }[command]


def given_in(folder):
    """What comes by standard input: a script, a claim or origins, where the shape has them."""
    for name in ("script", "claim", "origins"):
        path = os.path.join(folder, name)
        if os.path.exists(path):
            with open(path, "rb") as file:
                return file.read()
    return b""


def run_shape(program, shape, size, limit, reads):
    """The megabytes of the shape, the run over it, and one that reads the feed, if it is wanted and
    another.
    """
    with tempfile.TemporaryDirectory() as folder:
        shape.make(folder, size)
        given = given_in(folder)
        reading = ended = Run(program, words_for(shape.command, folder), given, limit=limit)
        if reads and shape.command != "direct":
            reading = Run(program, words_for("direct", folder), limit=limit)
        return megabytes_of(folder), ended, reading


def growth(taken, least):
    """By how much each of these seconds is more than those before, which count as the least."""
    return [later / max(least, sooner) for sooner, later in zip(taken, taken[1:])]


def faults_of(taken, reading, words):
    """What is wrong with these seconds, of what is asked for; where a run didn't end, all of it."""
    ended = len(taken) == 3
    if words.most and not (ended and max(growth(taken, LEAST)) <= words.most):
        yield "grew by more"
    if words.reading and not (ended and taken[-1] <= words.reading * max(LEAST, reading)):
        yield "took more beside reading"


def run(words):
    names = known([shape for name in words.names for shape in GROUPS.get(name, [name])], SHAPES)
    program = router()
    faults = {"grew by more": [], "took more beside reading": []}
    table = Table(
        commit_of(program),
        "shape",
        "command",
        "n",
        "status",
        "first line",
        "seconds at n",
        "2n",
        "4n",
        "2n to n",
        "4n to 2n",
        "reading 4n",
        "MB of 4n",
        "memory MB",
    )
    for name in names:
        shape = SHAPES[name]
        size = max(1, int(shape.size * words.scale))
        taken = []
        for times in (1, 2, 4):
            found = run_shape(program, shape, times * size, words.limit, times == 4)
            megabytes, ended, reading = found
            taken.append(ended.seconds)
            if ended.status == "SIGXCPU":
                break
        for fault in faults_of(taken, reading.seconds, words):
            faults[fault].append(name)
        table.row(
            name.replace("_", " "),
            f"`{shape.command}`",
            size,
            ended.status,
            ended.first_line(),
            *padded([f"{seconds:.2f}" for seconds in taken], 3),
            *padded([f"{times:.1f}" for times in growth(taken, 0.01)], 2),
            f"{reading.seconds:.2f}" if len(taken) == 3 else "-",
            f"{megabytes:.1f}",
            f"{ended.megabytes:.0f}",
        )
    for fault, shapes in faults.items():
        if shapes:
            print(f"bench: these {fault}: {' '.join(shapes)}", file=sys.stderr)
    return 1 if any(faults.values()) else 0


def padded(cells, length):
    return cells + ["-"] * (length - len(cells))
