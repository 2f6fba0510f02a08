"""Reading, reduction and search over made cities of several sizes.

Reading is what `direct` takes on a day without service, and the timetable what it takes more on a
working day. The reduction, which makes lines and kept transfers, is `build` less `direct`; set and
search are `ask` less `build`; round by round is `ask --plain` less `direct`. Seconds are of
processor time.
"""
import os
import shutil
import tempfile
import time

from feeds import city
from harness import DAY, Table, commit_of, count, done, megabytes_of, router, rows_of

OPTIONS = ["--change", "60"]
NO_DAY = "20300101"


def add_arguments(parser):
    sizes = [2_000, 20_000, 200_000]
    text = "trips of each city (else 2000 20000 200000)"
    parser.add_argument("--trips", type=count, nargs="+", default=sizes, help=text)
    parser.add_argument("--days", type=count, default=1, help="of how many days (else 1)")


def copy_seconds(folder):
    """The seconds of a plain copy of the files."""
    with tempfile.TemporaryDirectory() as other:
        start = time.perf_counter()
        shutil.copytree(folder, os.path.join(other, "copy"))
        return time.perf_counter() - start


def measure(program, table, trips, days, folder):
    city.make(folder, trips)
    ends = ["S0", f"S{city.side_of(trips) ** 2 - 1}", "08:00:00"]

    def run(*words, **how):
        return done(program, [*OPTIONS, f"--days={days}", *words], **how)

    read, direct = (run("direct", folder, day, *ends) for day in (NO_DAY, DAY))
    built = run("build", folder, DAY, out=None)
    ask, plain = (run(*options, "ask", folder, DAY, *ends) for options in ([], ["--plain"]))
    counts = built.out.split("\n")[1].split()[1::2]
    rows, size = rows_of(folder, "stop_times.txt"), megabytes_of(f"{folder}/stop_times.txt")
    reading = max(read.megabytes, direct.megabytes)
    table.row(
        f"{trips:,}",
        f"{rows:,}",
        f"{size:.0f}",
        f"{copy_seconds(folder):.2f}",
        f"{read.seconds:.2f}",
        f"{size / read.seconds:.0f}",
        f"{direct.seconds - read.seconds:.2f}",
        f"{built.seconds - direct.seconds:.2f}",
        f"{ask.seconds - built.seconds:.2f}",
        f"{plain.seconds - direct.seconds:.2f}",
        f"{reading:.0f}",
        f"{(reading - size) * 1e6 / rows:.0f}",
        f"{max(reading, built.megabytes, ask.megabytes):.0f}",
        *(f"{int(number):,}" for number in counts),
    )


def run(words):
    program = router()
    table = Table(
        commit_of(program),
        "trips",
        "stop times",
        "MB",
        "copy s",
        "reading s",
        "MB/s",
        "timetable s",
        "reduction s",
        "set and search s",
        "round by round s",
        "reading MB",
        "bytes a stop time beside the file",
        "all MB",
        "lines",
        "candidates",
        "without U-turns",
        "kept",
    )
    for trips in words.trips:
        with tempfile.TemporaryDirectory() as folder:
            measure(program, table, trips, words.days, folder)
    return 0
