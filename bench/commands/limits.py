"""The program at its limits and just past them.

Writes a feed or a script at a limit and one just past it, runs `direct` or `serve` over each, and
prints status, processor seconds and memory. The files take up to two gigabytes of a temporary
folder at a time.
"""
import tempfile

from feeds import limits, smallest
from harness import DAY, Run, Table, commit_of, known, megabytes_of, router

NAMES = [*limits.FEEDS, *limits.SCRIPTS]


def add_arguments(parser):
    parser.add_argument("names", metavar="NAME", nargs="*", help=f"of {' '.join(NAMES)} (else all)")


def run_feed(program, name, folder, more):
    """The megabytes of a feed, and the run over it."""
    limits.FEEDS[name](folder, more)
    words = [*limits.OPTIONS.get(name, []), "direct", folder, DAY, "A", "B", "08:00:00"]
    return megabytes_of(folder), Run(program, words)


def run_script(program, name, folder, more):
    """The megabytes of a script, and the run that serves it."""
    smallest.make(folder)
    script = limits.SCRIPTS[name](more).encode()
    return len(script) / 1e6, Run(program, ["serve", f"{folder}@{DAY}"], given=script)


def run(words):
    names = known(words.names, NAMES)
    program = router()
    table = Table(
        commit_of(program),
        "at the limit of",
        "MB",
        "status",
        "first line",
        "processor seconds",
        "memory MB",
    )
    for name in names:
        for more, side in enumerate(("just at", "just past")):
            with tempfile.TemporaryDirectory() as folder:
                one = run_feed if name in limits.FEEDS else run_script
                size, ended = one(program, name, folder, more)
            took = f"{ended.seconds:.1f}", f"{ended.megabytes:.0f}"
            table.row(f"{name}, {side}", f"{size:.0f}", ended.status, ended.first_line(), *took)
    return 0
