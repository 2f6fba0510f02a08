"""What `check` warns of in a feed, by docs/DEFINITIONS.md, and what it writes of that."""
import collections
import re

from said import feeds, journeys, left
from said.journeys import DAY

# The names of warnings, in their order, each with what follows it.
FORMS = {
    "UnknownService": r" trips\.txt row [1-9]\d*",
    "NoTrips": "",
    "UnservedStop": r" stops\.txt row [1-9]\d*",
    "Closing": r" added \d+ lowered \d+",
    "LongHeadway": r" frequencies\.txt row [1-9]\d*",
}
# How many warnings of a name are told one by one.
MOST_TOLD = 10_000


def counts_of(feed, options):
    """How many changes closing adds and lowers, or None if it is refused."""
    given = journeys.Timetable(feed, "20260101", options._replace(close=False, days=1))
    found = journeys.closed(given.changes, given.stops)
    if any(secs > DAY for secs in found.values()):
        return None
    lowered = sum(secs < given.changes.get(pair, 0) for pair, secs in found.items())
    return len(found) - len(given.changes), lowered


def warnings_of(top, folder, date, options, is_small):
    """The warnings of a feed, each as it is shown behind its first word. The counts of closing are
    worked out where a function says that what is left of the feed is small, and else left open.
    """
    look = left.Look(feeds.path_of(top, folder))
    try:
        look.feed()
    except feeds.Fault:
        pass
    feed = look.kept
    if not feed:
        return []
    named = {fields[0] for fields in (*feed.calendar, *feed.dates)}
    rows = [row for row, service in look.services_of_trips if service not in named]
    found = [f"UnknownService trips.txt row {row}" for row in rows]
    if not any(journeys.runs_on(feed, service, date) for service, _ in feed.trips):
        found.append("NoTrips")
    served = {call.stop for calls in feed.calls.values() for call in calls}
    for stop, (kind, _) in feed.stops.items():
        if kind in feeds.PLATFORM and stop not in served:
            found.append(f"UnservedStop stops.txt row {look.stop_rows[stop]}")
    if is_small(feed):
        counts = counts_of(feed, options)
        if counts and any(counts):
            found.append("Closing added {} lowered {}".format(*counts))
    else:
        found.append(None)
    rows = [row for row, headway in look.headways if int(headway) > DAY]
    return found + [f"LongHeadway frequencies.txt row {row}" for row in rows]


def text_of(warnings):
    """What is written of warnings, each as it is shown behind its first word."""
    lines = []
    for name in FORMS:
        found = [it for it in warnings if it.split(" ")[0] == name]
        lines += [f"warning {it}" for it in found[:MOST_TOLD]]
        if len(found) > MOST_TOLD:
            lines.append(f"and {len(found) - MOST_TOLD} more of {name}")
    return "".join(f"{line}\n" for line in (*lines, f"warnings {len(warnings)}"))


def has_form(text):
    """Whether a text may be written of warnings."""
    counts, more = collections.Counter(), collections.Counter()
    *lines, last = text.split("\n")[:-1] or [""]
    for line in lines:
        found = re.fullmatch(r"and ([1-9]\d*) more of (\w+)", line)
        if found and counts[found[2]] == MOST_TOLD:
            more[found[2]] += int(found[1])
            continue
        name = line.split(" ")[1:2]
        if not name or not re.fullmatch(f"warning {name[0]}{FORMS.get(name[0], '$.')}", line):
            return False
        counts[name[0]] += 1
    total = sum(counts.values()) + sum(more.values())
    is_all = last == f"warnings {total}" and text.endswith("\n")
    return is_all and max(counts.values(), default=0) <= MOST_TOLD


def is_right(text, warnings):
    """Whether a text is written of warnings, of which None stands for counts of closing that aren't
    known.
    """
    if None not in warnings:
        return text == text_of(warnings)
    known = [it for it in warnings if it]
    closing = re.findall(r"^warning (Closing .+)$", text, re.MULTILINE)[:1]
    return has_form(text) and text == text_of([*known, *closing])
