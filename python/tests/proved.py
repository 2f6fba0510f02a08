"""The proved program, where it is there: that of crates/router, or the one that the variable ROUTER
of the environment names; and feeds to try it on.
"""
import csv
import json
import os
import random
import subprocess
import sys
from pathlib import Path
from typing import Any

from . import TOP
from yuccadarts import Ask, Choice, Latest, Profile, Question, Reach, Times, Update, clock
from yuccadarts.answers import READERS, read_choice
from yuccadarts.updates import write_updates

PROGRAM = Path(os.environ.get("ROUTER") or TOP / "crates" / "router" / "out" / "router")
IS_THERE = os.access(PROGRAM, os.X_OK)
EXAMPLES = TOP / "examples"
DAY = "20260302"


def words_of(question: Question) -> tuple[str, list[str]]:
    """The command that asks a question, and its words behind the day."""
    match question:
        case Ask(origin, destination, departure):
            return "ask", [origin, destination, clock(departure)]
        case Profile(origin, destination, first, last):
            return "profile", [origin, destination, clock(first), clock(last)]
        case Latest(origin, destination, arrival):
            return "latest", [origin, destination, clock(arrival)]
        case Reach(origin, departure):
            return "reach", [origin, clock(departure)]
        case Times(origin, first, last, step, rides):
            limit = [] if rides is None else ["rides", str(rides)]
            return "times", [origin, clock(first), clock(last), str(step), *limit]


def commanded(
    feed: str | Path, question: Question, *options: str, date: str = DAY
) -> tuple[Any, ...]:
    """The values that the command finds in a process of its own."""
    name, words = words_of(question)
    command = [str(PROGRAM), "--json", *options, name, str(feed), date, "--", *words]
    ended = subprocess.run(command, capture_output=True, check=True)
    return tuple(READERS[type(question)](json.loads(line)) for line in ended.stdout.splitlines())


def commanded_late(
    feed: str | Path, question: Ask, updates: list[Update], *options: str, date: str = DAY
) -> tuple[Choice, ...]:
    """The values that `late` finds over the day that the updates amend."""
    path = write_updates(updates)
    words = [str(feed), date, path, "--", *words_of(question)[1]]
    try:
        command = [str(PROGRAM), "--json", *options, "late", *words]
        ended = subprocess.run(command, capture_output=True, check=True)
    finally:
        os.remove(path)
    return tuple(read_choice(json.loads(line)) for line in ended.stdout.splitlines()[1:])


def make_network(folder: str | Path, patterns: int) -> None:
    """Writes the feed of a made network."""
    words = [sys.executable, "bench", "make", "network", str(folder), str(patterns)]
    subprocess.run(words, cwd=TOP, check=True)


def add_coordinates(folder: str | Path) -> None:
    """Gives the stops of a made network coordinates: its stations stand in a square, some hundreds
    of metres apart, and each a bit beside its place.
    """
    path = Path(folder, "stops.txt")
    with path.open(encoding="utf-8", newline="") as file:
        header, *rows = csv.reader(file)
    side = round(sum(row[2] == "1" for row in rows) ** 0.5)
    drawn = random.Random(1)
    with path.open("w", encoding="utf-8", newline="") as file:
        out = csv.writer(file)
        out.writerow([*header, "stop_lat", "stop_lon"])
        for row in rows:
            if row[2] == "1":
                y, x = divmod(int(row[0][1:]), side)
                latitude = 47 + 0.004 * (y + drawn.uniform(-0.4, 0.4))
                longitude = 8 + 0.006 * (x + drawn.uniform(-0.4, 0.4))
            out.writerow([*row, f"{latitude:.6f}", f"{longitude:.6f}"])
