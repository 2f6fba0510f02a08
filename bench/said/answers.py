"""The texts that the program writes, as docs/FORMATS.md says: their lines, and what their numbers
have to keep.
"""
import re

from said import feeds

USAGE = (
    "usage: router [--change SECS] [--station SECS] [--close] [--lenient] [--days N] [--workers N]"
    " [--plain] [--lanes N] [--mirror] [--csv] COMMAND WORDS"
)
TIME = r"-?\d{2,3}:[0-5]\d:[0-5]\d"
LEG = rf"  (?:ride .+ .+ {TIME} .+ {TIME}(?: day-before| day-after| day\+2)?|walk .+ .+ \d+)\n"
NO_JOURNEY = "no journey\n"
CHOICES = rf"(?:{NO_JOURNEY}|(?:arrive {TIME} rides \d+\n(?:{LEG})*)+)"
OFFERS = rf"(?:{NO_JOURNEY}|(?:leave {TIME} arrive {TIME} rides \d+\n(?:{LEG})+)+)"
SIZES = (
    r"stops \d+ trips \d+ events \d+ footpaths \d+\n"
    r"lines \d+ generated \d+ after_uturn \d+ kept \d+\n"
)
END = r".+@\d+(?:/before|/after|/\+2)?"
RULES = (
    "BadNumber|TwoWalks|NoWalk|NoBoarding|NoAlighting|WrongStart|TooEarly|Apart|TooLate|WrongEnd"
)
COUNTS = r"trips \d+ lines \d+ kept \d+\n"
ITEM = rf"edition \d+ .+ (?:{COUNTS}|touched \d+ kept \d+\n)|refused .+\n"
REACHED = rf"(?:.+(?: -|(?: {TIME}/\d+)+)\n)*"
TRAVEL = rf"(?:.+ \d+/\d+(?: -| {TIME}){{7}}\n)*"
DEPARTURES = rf"(?:{NO_JOURNEY}|(?:leave {TIME} rides \d+\n(?:{LEG})*)+)"
ANSWER = rf"{CHOICES}|{OFFERS}|{DEPARTURES}|unknown stop (?s:.*)\n|{REACHED}|{TRAVEL}"
REPLY = rf"\d+ edition \d+\n(?:deferred \d+\n|{ANSWER})"
LANES = rf"(?:lane .*\n(?:{REPLY})*)*"
ROW = "from,to,reached,departures,least,p5,p25,p50,p75,p95,greatest"
# What each command may write.
FORMS = {
    "direct": rf"arrive {TIME}\n|{NO_JOURNEY}",
    "ask": CHOICES,
    "profile": OFFERS,
    "latest": DEPARTURES,
    "reach": REACHED,
    "times": TRAVEL,
    "matrix": rf"(?:from .*\n(?:unknown stop .*\n|{TRAVEL})\n)*|{ROW}\r?\n(?:.*\n)*",
    "verify": rf"yes\n|no (?:{RULES}) leg \d+\n|no value arrive {TIME} rides \d+\n",
    "late": rf"edition 2 redone \d+ kept \d+\n{CHOICES}",
    "build": rf"{SIZES}(?:{END} {END}\n)*",
    "serve": rf"(?:{ITEM})+{LANES}closing edition \d+\n{LANES}",
    "live": rf"edition 1 .+ {COUNTS}(?:.*\n)*",
    "city": rf"{SIZES}{CHOICES}",
}
# Commands about places may have met a name that no stop and no station has.
PLACES = ("direct", "ask", "profile", "latest", "reach", "times", "verify", "late")
OWN_VALUE = re.compile(rf"^no value arrive ({TIME}) rides (\d+)$", re.M)
VALUE = re.compile(rf"^arrive ({TIME}) rides (\d+)$", re.M)


def seconds_of(text):
    hours, minutes, seconds = map(int, text.lstrip("-").split(":"))
    total = hours * 3600 + minutes * 60 + seconds
    return -total if text.startswith("-") else total


def is_answer(command, text):
    """Whether a text is one that the command may write. Names are without line feeds."""
    form = FORMS[command]
    if command in PLACES:
        form = rf"{form}|unknown stop (?s:.*)\n"
        if command == "late":
            form = rf"{form}|edition 2 redone \d+ kept \d+\nunknown stop (?s:.*)\n"
    return bool(re.fullmatch(form, text)) and (command not in ("ask", "late") or are_best(text))


def are_best(text):
    """Whether later values have more rides and arrive earlier."""
    values = [(seconds_of(time), int(rides)) for time, rides in VALUE.findall(text)]
    return all(a[0] > b[0] and a[1] < b[1] for a, b in zip(values, values[1:]))


SCRIPT_FAULT = r"(?:1 BadLine|2 TooManyLanes|3 TooManyLines|4 BadTime) line \d+|5 TooLong"
LATE_FAULT = (
    r"(?:1 UnknownTrip|2 TimeRunsBack|3 OutOfRange|4 BadEvent|5 BadLine) line \d+|"
    "6 MissingFile|7 TooLarge"
)
ORIGINS_FAULT = r"1 BadLine line \d+|5 TooLong|6 MissingFile"
CLAIM_FAULT = r"(?:1 BadLine|2 UnknownStop|3 NoSuchRide) line \d+|4 TooLong"
# What stands before a fault on standard error, by status, with the form of the fault by command.
REFUSALS = {
    7: ("router: script refused: ", {"serve": SCRIPT_FAULT, "matrix": ORIGINS_FAULT}),
    8: ("router: late refused: ", {"late": LATE_FAULT}),
    9: ("router: journey refused: ", {"verify": CLAIM_FAULT}),
}
READ_FAULT = "router: read fault"
FEED_REFUSED = "router: feed refused: "


def fault_in(status, line, command):
    """The fault that a line on standard error tells with a status, or None if it may not be."""
    if status == 2:
        return "" if line == USAGE else None
    if status == 4:
        return "" if line == READ_FAULT else None
    if status == 3:
        fault = line[len(FEED_REFUSED) :] if line.startswith(FEED_REFUSED) else ""
        return fault if feeds.is_fault(fault) else None
    before, forms = REFUSALS.get(status, ("", {}))
    if command in forms and line.startswith(before):
        fault = line[len(before) :]
        return fault if re.fullmatch(forms[command], fault) else None
    return None
