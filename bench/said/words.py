"""Which words are a command line, as docs/FORMATS.md says."""
import re

VALUES = {
    "--change": (0, 86_400),
    "--station": (0, 86_400),
    "--days": (1, 3),
    "--workers": (1, 64),
    "--lanes": (1, 64),
}
FLAGS = ("--close", "--lenient", "--plain", "--mirror", "--csv", "--json")
LATEST = 273_599
MOST_STEP, MOST_LATER = 3_600, 1_439
DAYS_OF_MONTH = (31, 28, 31, 30, 31, 30, 31, 31, 30, 31, 30, 31)


def number_of(text, digits=9):
    """The number that one to so many digits write, if they do."""
    return int(text) if re.fullmatch(r"[0-9]{1,%d}" % digits, text) else None


def time_of(text):
    """The seconds of a time, if it is one."""
    found = re.fullmatch(r"([0-9]{1,2}):([0-5][0-9]):([0-5][0-9])", text)
    return found and int(found[1]) * 3600 + int(found[2]) * 60 + int(found[3])


def is_date(text):
    if not re.fullmatch(r"[0-9]{8}", text):
        return False
    year, month, day = int(text[:4]), int(text[4:6]), int(text[6:])
    if year == 0 or not 1 <= month <= 12:
        return False
    leap = year % 4 == 0 and (year % 100 != 0 or year % 400 == 0)
    return 1 <= day <= DAYS_OF_MONTH[month - 1] + (month == 2 and leap)


def parted(words):
    """The options among words, each with its number if it has one, and the other words; or None
    where an option isn't as it has to be.
    """
    options, left, at = {}, [], 0
    while at < len(words):
        word = words[at]
        at += 1
        if word == "--":
            return options, left + words[at:]
        name, equals, value = word.partition("=")
        if name in VALUES and name not in options:
            if not equals:
                if at == len(words):
                    return None
                value = words[at]
                at += 1
            least, most = VALUES[name]
            options[name] = number_of(value)
            if options[name] is None or not least <= options[name] <= most:
                return None
        elif word in FLAGS and word not in options:
            options[word] = None
        elif word.startswith("-") and word != "-":
            return None
        else:
            left.append(word)
    return options, left


def are_of_day(folder_date, rest, *checks):
    """Whether a folder and a date stand there, and words for which the checks hold."""
    return (
        len(folder_date) == 2
        and is_date(folder_date[1])
        and len(rest) == len(checks)
        and all(check(word) for check, word in zip(checks, rest))
    )


def anything(_):
    return True


def is_time(text):
    return time_of(text) is not None


def is_latest_time(text):
    return is_time(text) and time_of(text) <= LATEST


def late_path(word):
    """The file of updates that an item of a plan names, or None where it names none."""
    return word[len("late:") :] if word.startswith("late:") else None


def is_item(word):
    path = late_path(word)
    return is_day(word) if path is None else bool(path)


def is_day(word):
    folder, at, date = word.rpartition("@")
    return bool(at and folder) and is_date(date)


def times_fault(words):
    """What is wrong with the words FROM FIRST LAST STEP, and perhaps `rides N`: the name of the
    fault, or None.
    """
    step = number_of(words[3]) if len(words) in (4, 6) else None
    limit = words[4:5] in ([], ["rides"]) and all(number_of(word) is not None for word in words[5:])
    if not limit or not 1 <= (step or 0) <= MOST_STEP:
        return "BadLine"
    first, last = map(time_of, words[1:3])
    if first is None or last is None or not first <= last <= first + MOST_LATER * step:
        return "BadTime"
    return None


ENDS = (anything, anything)
CHECKS = {
    "direct": (*ENDS, is_time),
    "ask": (*ENDS, is_time),
    "profile": (*ENDS, is_time, is_time),
    "latest": (*ENDS, is_latest_time),
    "reach": (anything, is_time),
    "verify": (*ENDS, is_time),
    "check": (),
}


def are_valid(words):
    """Whether words, as bytes, are a command line."""
    try:
        found = parted([word.decode() for word in words])
    except UnicodeDecodeError:
        return False
    if not found or not found[1]:
        return False
    name, *rest = found[1]
    if name in CHECKS:
        return are_of_day(rest[:2], rest[2:], *CHECKS[name])
    if name == "late":
        return are_of_day(rest[:2], rest[2:], anything, *CHECKS["ask"])
    if name == "times":
        return are_of_day(rest[:2], []) and times_fault(rest[2:]) is None
    if name == "matrix":
        return are_of_day(rest[:2], []) and times_fault(rest[2:]) is None
    if name == "build":
        return are_of_day(rest[:2], [], *()) and rest[2:] in ([], ["list"])
    if name in ("serve", "live"):
        begins = bool(rest) and late_path(rest[0]) is None
        return begins and len(rest) <= 100 and all(map(is_item, rest))
    if name == "city":
        return len(rest) == 1 and 2 <= (number_of(rest[0]) or 0) <= 40
    return False
