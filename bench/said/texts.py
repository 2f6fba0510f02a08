"""The first bad line of a script, a file of delays or a claim, as docs/FORMATS.md says, as far as
that takes no timetable.
"""
import re
import typing

from said.words import is_latest_time, is_time, number_of, times_fault

LONGEST_LINE = 1024
MOST_BYTES = 33_554_432
MOST_BYTES_OF_CLAIM = 1_048_576
MOST_LANES = 64
MOST_REQUESTS = 20_000
# The words of service days other than the date, and how many days after it they are.
DAYS = {"day-before": -1, "day-after": 1, "day+2": 2}


def day_of(marks):
    """How many days after the date the service day is that words behind a trip name, or None."""
    return DAYS.get(marks[0]) if marks else 0


def lines_of(text):
    """The lines of bytes, as pairs of their number and of themselves."""
    lines = text.split(b"\n")
    if not lines[-1]:
        lines.pop()
    return enumerate((line[:-1] if line.endswith(b"\r") else line for line in lines), 1)


def worded(text):
    """The words of each line, with its number."""
    return [(number, words_of(line)) for number, line in lines_of(text)]


def words_of(line):
    """The words of a line; none where it is skipped, and None where it is bad."""
    if len(line) > LONGEST_LINE:
        return None
    try:
        text = line.decode()
    except UnicodeDecodeError:
        return None
    if text.startswith("#"):
        return []
    word = r'"(?:[^"]|"")*"(?![^ \t])|[^ \t"][^ \t]*'
    if not re.fullmatch(rf"[ \t]*(?:(?:{word})(?:[ \t]+(?:{word}))*)?[ \t]*", text):
        return None
    return [unquoted(found) for found in re.findall(word, text)]


def unquoted(word):
    return word[1:-1].replace('""', '"') if word.startswith('"') else word


def script_fault(text):
    """The first fault of a script as it is shown, or None."""
    if len(text) > MOST_BYTES:
        return "5 TooLong"
    lanes = requests = 0
    for number, line in lines_of(text):
        words = words_of(line)
        if words == []:
            continue
        fault = line_fault(words, lanes)
        is_lane = bool(words) and words[0] == "lane"
        if fault != "1 BadLine":
            lanes, requests = lanes + is_lane, requests + (not is_lane)
            if lanes > MOST_LANES:
                fault = "2 TooManyLanes"
            elif requests > MOST_REQUESTS:
                fault = "3 TooManyLines"
        if fault:
            return f"{fault} line {number}"
    return None if lanes else "1 BadLine line 0"


def line_fault(words, lanes):
    """What is wrong with the form of a line of a script, or its times."""
    if words is None:
        return "1 BadLine"
    if words[0] == "lane":
        return None if len(words) == 2 else "1 BadLine"
    if words[0] == "since":
        if len(words) < 2 or number_of(words[1]) is None:
            return "1 BadLine"
        words = words[2:]
    if words and words[0] == "times" and lanes:
        return {"BadLine": "1 BadLine", "BadTime": "4 BadTime"}.get(times_fault(words[1:]))
    form = (words[0] if words else "", len(words))
    times = {("ask", 4): 1, ("profile", 5): 2, ("latest", 4): 1, ("reach", 3): 1}.get(form)
    if times is None or not lanes:
        return "1 BadLine"
    may_be_asked = is_latest_time if words[0] == "latest" else is_time
    if not all(may_be_asked(word) for word in words[-times:]):
        return "4 BadTime"
    return None


class Update(typing.NamedTuple):
    """What a line of a file of delays says of a trip: its seconds are None where it is no delay,
    its event is where it is a cancellation.
    """

    trip: str
    day: int
    event: int = None
    secs: int = None


def update_of(words):
    """What the words of a line say of a trip, or None."""
    if not words:
        return None
    kind, *words = words
    day = -1 if kind == "late-before" else 0
    kind = "late" if day else kind
    if words[-1:] and len(words) == {"late": 4, "cancel": 2, "skip": 3}.get(kind):
        word = words.pop()
        if day or word not in DAYS:
            return None
        day = DAYS[word]
    if kind == "cancel" and len(words) == 1:
        return Update(words[0], day)
    if kind not in ("late", "skip") or len(words) != (3 if kind == "late" else 2):
        return None
    event, secs = number_of(words[1]), seconds_of(words[2]) if kind == "late" else None
    if event is None or kind == "late" and secs is None:
        return None
    return Update(words[0], day, event, secs)


def seconds_of(word):
    """The seconds of a delay, with or without a sign, or None."""
    number = number_of(word[1:] if word.startswith("-") else word)
    return number if number is None or not word.startswith("-") else -number


def late_fault(text):
    """The first bad line of a file of delays, or that it is too long, or None."""
    if len(text) > MOST_BYTES:
        return "7 TooLarge"
    for number, line in lines_of(text):
        words = words_of(line)
        if words != [] and update_of(words) is None:
            return f"5 BadLine line {number}"
    return None


def origins_fault(text):
    """The first line of a file of origins that is bad, or that it is too long, or None."""
    if len(text) > MOST_BYTES:
        return "5 TooLong"
    for number, line in lines_of(text):
        words = words_of(line)
        if words is None or len(words) > 1:
            return f"1 BadLine line {number}"
    return None


def is_shown_time(text):
    """Whether it is a time as it is shown, from -24:00:00 to 123:59:59."""
    found = re.fullmatch(r"(-?)([0-9]{2,3}):([0-5][0-9]):([0-5][0-9])", text)
    if not found or found[1] and number_of(text[1:].replace(":", "")) == 0:
        return False
    hours, minutes, seconds = (int(part) for part in found.groups()[1:])
    total = hours * 3600 + minutes * 60 + seconds
    return total <= 86_400 if found[1] else total <= 123 * 3600 + 3599


def is_leg(words):
    if words[0] == "walk":
        return len(words) == 4 and number_of(words[3]) is not None
    if words[0] != "ride" or len(words) not in (6, 7) or day_of(words[6:]) is None:
        return False
    return is_shown_time(words[3]) and is_shown_time(words[5])


def is_value(words):
    return (
        len(words) == 4
        and (words[0], words[2]) == ("arrive", "rides")
        and is_shown_time(words[1])
        and number_of(words[3]) is not None
    )


def claim_fault(text, lines):
    """The first bad line of a claim, whose lines in words these are, or that it is too long, or None.
    """
    if len(text) > MOST_BYTES_OF_CLAIM:
        return "4 TooLong"
    has_value = False
    for number, words in lines:
        if words == []:
            continue
        if words is None or not (is_leg if has_value else is_value)(words):
            return f"1 BadLine line {number}"
        has_value = True
    return None if has_value else "1 BadLine line 0"
