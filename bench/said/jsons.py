"""What the program writes and reads with `--json`, by docs/FORMATS.md and docs/schema, as the texts
for which it stands.
"""
import itertools
import json

from said import served, texts
from said.answers import USAGE, seconds_of
from said.lived import published
from harness import clock

JSON_USAGE = USAGE.replace("[--csv]", "[--csv] [--json]")
DEEPEST = 128
# What stands behind a trip's name, by its `day`, and behind an end of a kept transfer.
MARKS = {day: f" {word}" for word, day in texts.DAYS.items()}
ENDS = {-1: "/before", 1: "/after", 2: "/+2"}
# Where a text says that there is no value.
NO_JOURNEY = ("ask", "profile", "latest", "late", "city")
# What is told of an item that became an edition: a day, or a file of updates.
ITEMS = ("day", "edition", "trips", "lines", "kept"), ("day", "edition", "touched", "kept")


class Other(Exception):
    """What is written has another form."""


def asks_json(words):
    """Whether words, as bytes, ask for JSON, also where one isn't UTF-8."""
    return next((word for word in words if word in (b"--json", b"--")), b"--") == b"--json"


def no_constant(text):
    raise ValueError(text)


def depth_of(value):
    items = value.values() if isinstance(value, dict) else value
    return 1 + max(map(depth_of, items), default=0) if isinstance(value, (dict, list)) else 0


def has_half(value):
    """Whether a text in it has half of a surrogate pair, which is no character."""
    if isinstance(value, str):
        return any("\ud800" <= letter <= "\udfff" for letter in value)
    items = [*value, *value.values()] if isinstance(value, dict) else value
    return isinstance(value, (dict, list)) and any(map(has_half, items))


class Number(str):
    """A number as it is written."""


def read(data):
    """The value that bytes are as JSON, its numbers as they are written; ValueError if they are
    none.
    """
    try:
        text = data.decode()
        how = {"parse_int": Number, "parse_float": Number, "parse_constant": no_constant}
        parts = []

        def members(pairs):
            parts.extend(part for pair in pairs for part in pair)
            return dict(pairs)

        value = json.loads(text, object_pairs_hook=members, **how)
        if max(map(depth_of, [value, *parts])) > DEEPEST or any(map(has_half, [value, *parts])):
            raise ValueError("no JSON")
        return value
    except RecursionError:
        raise ValueError("too deep") from None


# claims


def member(kind, found, name):
    value = found.get(name) if isinstance(found, dict) else None
    if not isinstance(value, kind) or kind is str and isinstance(value, Number):
        raise ValueError(name)
    return str(value) if kind in (str, Number) else value


def leg_words(leg):
    """The words of the line for which a leg stands."""
    if not isinstance(leg, dict) or "trip" not in leg:
        ends = [member(str, leg, name) for name in ("from", "to")]
        return ["walk", *ends, member(Number, leg, "seconds")]
    names = ("trip", "from", "departure", "to", "arrival")
    words = ["ride", *(member(str, leg, name) for name in names)]
    if "day" in leg:
        day = member(Number, leg, "day")
        words.append({"-1": "day-before", "1": "day-after", "2": "day+2"}[day])
    return words


def claim_lines(data):
    """The words of the lines for which a claim stands, each with its number, and None for those of
    a bad one; of bytes that are no JSON, those of line 0.
    """
    try:
        claim = read(data)
    except ValueError:
        return [(0, None)]
    try:
        value = member(str, claim, "arrive"), member(Number, claim, "rides")
        legs = member(list, claim, "legs")
    except ValueError:
        return [(1, None)]
    lines = [(1, ["arrive", value[0], "rides", value[1]])]
    for number, leg in enumerate(legs, 2):
        try:
            lines.append((number, leg_words(leg)))
        except (ValueError, KeyError):
            lines.append((number, None))
    return lines


def claim_of(text):
    """A claim in lines of which none is bad, as JSON."""
    claim = {}
    for _, words in texts.worded(text):
        if not words:
            continue
        if not claim:
            claim = {"arrive": words[1], "rides": int(words[3]), "legs": []}
        elif words[0] == "walk":
            claim["legs"].append({"from": words[1], "to": words[2], "seconds": int(words[3])})
        else:
            leg = dict(zip(("trip", "from", "departure", "to", "arrival"), words[1:6]))
            day = texts.day_of(words[6:])
            claim["legs"].append({**leg, **({"day": day} if day else {})})
    return json.dumps(claim, ensure_ascii=False).encode()


# what is written


def taken(found, *names):
    """The members with these names, which have to be all, in this order."""
    if not isinstance(found, dict) or tuple(found) != names:
        raise Other(f"{found} has other members than {' '.join(names)}")
    return list(found.values())


def time(shown, seconds):
    """A time as it is shown, which has to be so many seconds."""
    if seconds_of(shown) != seconds:
        raise Other(f"{shown} isn't {seconds}")
    return shown


def day_of(found, place):
    """The members without the day, which stands at a place; and the day."""
    if not isinstance(found, dict) or "day" not in found:
        return found, 0
    if list(found)[place] != "day" or found["day"] not in MARKS:
        raise Other(f"the day of {found}")
    return {name: value for name, value in found.items() if name != "day"}, found["day"]


def leg_text(leg):
    if isinstance(leg, dict) and "seconds" in leg:
        return "  walk {} {} {}\n".format(*taken(leg, "from", "to", "seconds"))
    leg, day = day_of(leg, 1)
    names = ("departure", "departure_seconds", "to", "arrival", "arrival_seconds")
    trip, start, leave, at, end, arrive, then = taken(leg, "trip", "from", *names)
    mark = MARKS.get(day, "")
    return f"  ride {trip} {start} {time(leave, at)} {end} {time(arrive, then)}{mark}\n"


def journey_text(found):
    """A best value, a slot or a latest departure, with its legs."""
    ends = [name for name in ("leave", "arrive") if isinstance(found, dict) and name in found]
    names = [part for name in ends for part in (name, f"{name}_seconds")]
    *times, rides, legs = taken(found, *names, "rides", "legs")
    shown = [f"{name} {time(*times[2 * i : 2 * i + 2])} " for i, name in enumerate(ends)]
    return f"{''.join(shown)}rides {rides}\n{''.join(map(leg_text, legs))}"


def direct_text(found):
    if found == {"arrive": None}:
        return "no journey\n"
    return f"arrive {time(*taken(found, 'arrive', 'arrive_seconds'))}\n"


def reached_text(found):
    stop, values = found
    shown = [f" {time(arrive, at)}/{rides}" for arrive, at, rides in values]
    return f"{stop}{''.join(shown) or ' -'}\n"


def travel_text(found):
    stop, reached, count, times = found
    shown = ["-" if secs is None else clock(secs) for secs in times]
    return f"{stop} {reached}/{count} {' '.join(shown)}\n"


def build_text(found):
    names = ("stops", "trips", "events", "footpaths"), ("lines", "generated", "after_uturn", "kept")
    numbers = taken(found, *names[0], *names[1])
    pairs = [f"{name} {number}" for name, number in zip((*names[0], *names[1]), numbers)]
    return f"{' '.join(pairs[:4])}\n{' '.join(pairs[4:])}\n"


def event_text(found):
    found, day = day_of(found, 1)
    return "{}@{}".format(*taken(found, "trip", "event")) + ENDS.get(day, "")


def transfer_text(found):
    return " ".join(map(event_text, taken(found, "from", "to"))) + "\n"


def fault_text(found):
    """A fault as it is shown."""
    number, name, *rest = found.values()
    kind = tuple(found)[2:]
    if tuple(found)[:2] != ("number", "name"):
        raise Other(f"{found} is no fault")
    forms = {
        (): "",
        ("file",): " {}",
        ("file", "row", "column"): " {} row {} column {}",
        ("quantity",): " {}",
        ("quantity", "row"): " {} row {}",
        ("line",): " line {}",
    }
    if kind == ("stops",):
        return f"{number} {name} {' '.join(rest[0])}"
    if kind not in forms:
        raise Other(f"{found} is no fault")
    return f"{number} {name}{forms[kind].format(*rest)}"


def check_text(found):
    names = tuple(found)
    if names[0] == "number":
        return f"{fault_text(found)}\n"
    forms = {
        ("more", "number"): "and {} more of number {}",
        ("faults",): "faults {}",
        ("warning", "file", "row"): "warning {} {} row {}",
        ("warning",): "warning {}",
        ("warning", "added", "lowered"): "warning {} added {} lowered {}",
        ("more", "warning"): "and {} more of {}",
        ("warnings",): "warnings {}",
    }
    if names not in forms:
        raise Other(f"{found} is no line of a check")
    return forms[names].format(*found.values()) + "\n"


def verdict_text(found):
    if found == {"valid": True}:
        return "yes\n"
    if found.get("valid") is not False:
        raise Other(f"{found} is no verdict")
    if "value" in found:
        value = taken(found, "valid", "value")[1]
        *shown, rides = taken(value, "arrive", "arrive_seconds", "rides")
        return f"no value arrive {time(*shown)} rides {rides}\n"
    return "no {} leg {}\n".format(*taken(found, "valid", "rule", "leg")[1:])


def unknown_text(found):
    return f"unknown stop {taken(found, 'unknown_stop')[0]}\n"


TEXTS = {
    "direct": direct_text,
    "reach": reached_text,
    "times": travel_text,
    "check": check_text,
    "verify": verdict_text,
}


def values_text(command, values):
    """The values that a command answers with."""
    text = "".join(map(TEXTS.get(command, journey_text), values))
    return text or ("no journey\n" if command in NO_JOURNEY else "")


def answer_text(command, lines):
    if command == "late":
        edition, redone, kept = taken(lines[0], "edition", "redone", "kept")
        rest = answer_text("ask", lines[1:])
        return f"edition {edition} redone {redone} kept {kept}\n{rest}"
    if command == "city":
        return build_text(lines[0]) + answer_text("ask", lines[1:])
    if command == "build":
        return build_text(lines[0]) + "".join(map(transfer_text, lines[1:]))
    if command == "matrix":
        return "".join(map(origin_text, lines))
    if len(lines) == 1 and isinstance(lines[0], dict) and "unknown_stop" in lines[0]:
        return unknown_text(lines[0])
    return values_text(command, lines)


def origin_text(found):
    if "unknown_stop" in found:
        origin, name = taken(found, "from", "unknown_stop")
        return f"from {origin}\nunknown stop {name}\n\n"
    origin, values = taken(found, "from", "values")
    return f"from {origin}\n{values_text('times', values)}\n"


def item_text(found):
    """What became of an item, or None where something else is told."""
    if "day" not in found:
        return None
    word, *rest = found.values()
    names = tuple(found)
    if names == ("day", "fault"):
        return f"refused {word} {fault_text(rest[0])}\n"
    if names == ("day", "message"):
        return f"refused {word} {rest[0]}\n"
    if names not in ITEMS:
        raise Other(f"{found} is no item")
    counts = [f"{name} {number}" for name, number in zip(names[2:], rest[1:])]
    return f"edition {rest[0]} {word} {' '.join(counts)}\n"


def reply_text(command, found):
    """The reply of an edition to a request, behind what numbers it."""
    begin = f"{found['request']} edition {found['edition']}\n"
    rest = {name: it for name, it in found.items() if name not in ("lane", "request", "edition")}
    if "deferred" in rest:
        return begin + f"deferred {taken(rest, 'deferred')[0]}\n"
    if "unknown_stop" in rest:
        return begin + unknown_text(rest)
    return begin + values_text(command, taken(rest, "values")[0])


def served_text(lines, lanes):
    """What `serve` tells of the lanes of a script."""
    items = list(itertools.takewhile(lambda found: "day" in found, lines))
    text, again = list(map(item_text, items)), []
    rest = iter(lines[len(items) :])
    for name, requests in lanes:
        found = [(number, words, next(rest, {})) for number, (_, words) in enumerate(requests, 1)]
        text += [f"lane {name}\n", *(lane_text(name, *it) for it in found)]
        again.append([it[:2] for it in found if it[0] == 1 or "deferred" in it[2]])
    text.append("closing edition {}\n".format(*taken(next(rest, {}), "closing")))
    for (name, _), requests in zip(lanes, again):
        text += [f"lane {name}\n", *(lane_text(name, *it, next(rest, {})) for it in requests)]
    if next(rest, None) is not None:
        raise Other("more than the lanes")
    return "".join(text)


def lane_text(name, number, words, found):
    """The reply to a request of a lane, by its number and its words."""
    if tuple(found)[:3] != ("lane", "request", "edition"):
        raise Other(f"{found} is no reply")
    if (found["lane"], found["request"]) != (name, number):
        raise Other(f"{found} isn't request {number} of {name}")
    return reply_text(words[0], found)


def lived_text(lines, asked):
    """What `live` tells of the words of its lines."""
    text = []
    for found in lines:
        item = item_text(found)
        if item:
            text.append(item)
            continue
        number = found.get("request", 0)
        if not 1 <= number <= len(asked):
            raise Other(f"{found} is of no line")
        words = asked[number - 1]
        text.append(live_reply(found, words))
    return "".join(text)


def live_reply(found, words):
    if "queued" in found:
        number, word = taken(found, "request", "queued")
        named = published(words)
        if not named or named[0] != word:
            raise Other(f"{found} isn't of {words}")
        return f"{number} queued\n\n"
    if "fault" in found:
        number, fault = taken(found, "request", "fault")
        name = {"1 BadLine": "bad line", "4 BadTime": "bad time"}.get(fault_text(fault))
        return f"{number} {name}\n\n"
    if tuple(found)[:2] != ("request", "edition"):
        raise Other(f"{found} is no reply")
    words = words[2:] if words[0] == "since" else words
    return reply_text(words[0], found) + "\n"


def refusal_text(status, line):
    """The line on standard error."""
    names = tuple(line)
    if names[:1] == ("message",) and line["message"] == "left out" and len(names) > 1:
        parts = []
        for file, count in list(line.items())[1:]:
            rows = "1 row" if count == 1 else f"{count} rows"
            parts.append(f"{'trips for ' * (file == 'stop_times.txt')}{rows} of {file}")
        return f"router: left out {', '.join(parts)} (see check)\n"
    if names not in (("status", "message"), ("status", "message", "fault")):
        raise Other(f"{line} is no line of a status")
    if line["status"] != status:
        raise Other(f"{line} with status {status}")
    if line["message"] == JSON_USAGE:
        return f"{USAGE}\n"
    fault = f": {fault_text(line['fault'])}" if "fault" in line else ""
    return f"router: {line['message']}{fault}\n"


def lines_in(text):
    """The values of lines, each of which has to be written as the program does."""
    *lines, last = text.split("\n")
    if last:
        raise Other("the last line has no end")
    found = []
    for line in lines:
        try:
            value = json.loads(line)
        except (ValueError, RecursionError):
            raise Other(f"{line[:200]} is no JSON") from None
        if json.dumps(value, ensure_ascii=False, separators=(",", ":")) != line:
            raise Other(f"{line[:200]} has other bytes than {value}")
        found.append(value)
    return found


def text_of(command, out, given):
    """The text for which what a command wrote stands; Other if it is none."""
    try:
        lines = lines_in(out)
        if command == "serve":
            return served_text(lines, served.lanes_of(given))
        if command == "live":
            asked = [words for _, words in texts.worded(given) if words != []]
            return lived_text(lines, asked)
        return answer_text(command, lines)
    except (ValueError, TypeError, KeyError, IndexError, AttributeError) as error:
        raise Other(f"another form: {error!r}") from None


def error_text(status, err):
    try:
        return "".join(refusal_text(status, line) for line in lines_in(err))
    except (ValueError, TypeError, KeyError, IndexError, AttributeError) as error:
        raise Other(f"another form on standard error: {error!r}") from None
