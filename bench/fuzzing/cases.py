"""Cases: the words of a command, the files where it runs, and standard input, all by a number."""
import collections
import os
import random

from fuzzing import changes, made
from harness import DAY, FEEDS, TOP
from said import jsons, texts
from said.words import FLAGS, time_of

EXAMPLES = os.path.join(TOP, "examples")
EXAMPLE_FEEDS = [os.path.join(EXAMPLES, name) for name in ("f1", "town", "valley")]
CASE_FEEDS = [os.path.join(FEEDS, name) for name in ("ring", "village")]
COMMANDS = (
    "direct",
    "ask",
    "profile",
    "latest",
    "reach",
    "times",
    "matrix",
    "verify",
    "late",
    "build",
    "serve",
    "live",
    "check",
)
TIMES = ("0:00:00", "06:55:00", "08:00:00", "08:05:00", "8:30:00", "24:10:00", "75:59:59")
DATES = (DAY, DAY, DAY, DAY, DAY, "20260303", "20260307", "20260406", "20270101", "00010101")
FEED_FILES = (
    "stops.txt",
    "calendar.txt",
    "calendar_dates.txt",
    "trips.txt",
    "stop_times.txt",
    "transfers.txt",
    "frequencies.txt",
)
# Where a byte is put: into a word, standard input, a file of the feed, of updates or of origins.
PLACES = {
    **{command: ("word", *FEED_FILES) for command in COMMANDS},
    "serve": ("word", *FEED_FILES, "given", "late"),
    "live": ("word", *FEED_FILES, "given", "late"),
    "late": ("word", *FEED_FILES, "late"),
    "matrix": ("word", *FEED_FILES, "given", "origins"),
    "verify": ("word", *FEED_FILES, "given"),
}
TARGETS = [(command, place) for command in COMMANDS for place in PLACES[command]]
CALENDAR = (
    "service_id,monday,tuesday,wednesday,thursday,friday,saturday,sunday,start_date,end_date\n"
    f"S,1,1,1,1,1,1,1,{DAY},20260331\n"
)
# A folder in place of a file.
FOLDER = object()

Case = collections.namedtuple("Case", "words files given")


def read(path):
    with open(path, "rb") as file:
        return file.read()


def feed_in(folder):
    """The files of a feed by their names."""
    return {name: read(os.path.join(folder, name)) for name in sorted(os.listdir(folder))}


def column(data, name):
    """The fields of a column of a plain file."""
    rows = [line.split(",") for line in data.decode("utf-8-sig").split("\n") if line]
    at = rows[0].index(name)
    return [row[at] for row in rows[1:]]


class Maker:
    """Makes the cases of a seed: the same number gives the same case."""

    # How many there are, if they end.
    count = None

    def __init__(self, seed):
        self.seed = seed
        self.feeds = list(map(feed_in, EXAMPLE_FEEDS + CASE_FEEDS))
        self.texts = {it: read(os.path.join(EXAMPLES, it)) for it in ("script", "late", "claim")}

    def case(self, number):
        return self.draw(number).case()

    def draw(self, number):
        return Draw(self, random.Random(f"{self.seed}:{number}"))


class ByteMaker(Maker):
    """Makes cases with nothing changed but a byte that is put somewhere: each of 256, in each file of
    each command, and in its words.
    """

    count = 256 * len(TARGETS)

    def case(self, number):
        target, byte = divmod(number, 256)
        return self.draw(number).case_with_byte(*TARGETS[target % len(TARGETS)], bytes([byte]))


class Draw:
    """One case by a source of random numbers."""

    def __init__(self, maker, drawn):
        self.maker, self.drawn = maker, drawn
        self.feed = made.feed(drawn) if self.often(0.5) else dict(drawn.choice(maker.feeds))
        self.stops = column(self.feed["stops.txt"], "stop_id")
        self.trips = column(self.feed["trips.txt"], "trip_id")
        times = column(self.feed["stop_times.txt"], "departure_time")
        self.times = [*(time for time in times if time), *TIMES]

    def often(self, chance):
        return self.drawn.random() < chance

    def case(self):
        command = self.drawn.choice(COMMANDS)
        words = self.options() + [command, *self.words_behind(command)]
        given = self.given(command)
        if command == "verify" and self.often(0.6):
            found, given = self.likely_claim()
            words = [*words[: words.index("verify") + 1], *found]
        if command == "verify" and "--json" in words:
            given = self.as_json(given)
        if self.often(0.01):
            words, given = ["city", str(self.drawn.randrange(12))], b""
        if self.often(0.1):
            words = self.changed_words(words)
        else:
            words = [word.encode() for word in words]
        if self.often(0.3):
            self.feed["frequencies.txt"] = self.frequencies()
        files = {f"f/{name}": data for name, data in self.changed_feed().items()}
        if command in ("serve", "live"):
            files.update((f"g/{name}", data) for name, data in self.feed.items())
        if command in ("late", "serve", "live"):
            files["late"] = self.sometimes_changed(self.lates())
        if command == "matrix":
            files["origins"] = self.sometimes_changed(self.origins())
        return Case(words, files, given)

    def case_with_byte(self, command, place, byte):
        """A case with a byte, once or often, at a place of a command."""
        self.feed["calendar.txt"] = CALENDAR.encode()
        self.feed["frequencies.txt"] = self.frequencies()
        words = [*self.options(), command, *self.words_behind(command)]
        given = self.plain_given(command)
        begin = words.index(command) + 1
        if command == "verify":
            found, given = self.likely_claim()
            words[begin:] = found
            given = self.as_json(given, 0) if "--json" in words else given
        if command == "matrix":
            words[begin + 2] = "-" if place == "given" else "origins"
        if place == "late" and command != "late":
            words[begin:] = [f"f@{DAY}", "late:late"]
        files = {f"f/{name}": data for name, data in self.feed.items()}
        files.update((f"g/{name}", data) for name, data in self.feed.items())
        files.update(late=self.lates(), origins=self.origins())
        words = [word.encode() for word in words]
        if place == "word":
            at = self.drawn.randrange(len(words))
            words[at] = self.with_byte(words[at], byte).replace(b"\0", b"0")
        elif place == "given":
            given = self.with_byte(given, byte)
        else:
            path = place if place in files else f"f/{place}"
            files[path] = self.with_byte(files.get(path, b""), byte)
        return Case(words, files, given)

    def with_byte(self, data, byte):
        """Bytes with one, once or often, in place of one or before it."""
        at, times = changes.place_in(self.drawn, data), self.drawn.choice((1, 1, 1, 1, 2, 1025))
        return data[:at] + byte * times + data[at + self.often(0.5) :]

    def options(self):
        words = []
        for name, values, wrong in (
            ("--change", ("0", "60", "121", "86400"), ("86401", "-1", "")),
            ("--station", ("0", "60", "120", "86400"), ("86401", "99999999", "1.5")),
            ("--days", ("1", "2", "3"), ("0", "4", "two")),
            ("--workers", ("1", "2", "4", "64"), ("0", "65", "four")),
            ("--lanes", ("1", "3", "64"), ("0", "65", "")),
        ):
            if self.often(0.2):
                value = self.drawn.choice(wrong if self.often(0.03) else values)
                words += [f"{name}={value}"] if self.often(0.3) else [name, value]
        return words + [word for word in FLAGS if self.often(0.25)]

    def words_behind(self, command):
        time, later = self.two_times()
        ends = self.ends()
        day = ["f", self.drawn.choice(DATES)]
        if command in ("serve", "live"):
            days = [f"{folder}@{self.drawn.choice(DATES)}" for folder in ("f", "g", "f", "g")]
            items = [self.updates() if self.often(0.3) else day for day in days[1:]]
            return [days[0], *items][: self.drawn.choice((1, 1, 2, 4))]
        return {
            "profile": [*day, *ends, time, later],
            "reach": [*day, ends[0], time],
            "times": [*day, ends[0], *self.departures()],
            "matrix": [*day, self.drawn.choice(("-", "origins")), *self.departures()],
            "late": [*day, "late", *ends, time],
            "build": [*day, *(["list"] if self.often(0.5) else [])],
            "check": day,
        }.get(command, [*day, *ends, time])

    def updates(self):
        """An item of a file of updates, which may not be there."""
        return "late:none" if self.often(0.1) else "late:late"

    def departures(self):
        """FIRST, LAST, a step by which there are some dozens, and at times a limit on rides."""
        first, last = self.two_times()
        between = (time_of(last) or 0) - (time_of(first) or 0)
        step = self.drawn.choice((300, 3600, between // 20 + 1, between // 4 + 1))
        limit = ["rides", self.drawn.choice("0123")] if self.often(0.3) else []
        return [first, last, str(self.drawn.choice((0, 3601)) if self.often(0.03) else step), *limit]

    def two_times(self):
        return sorted((self.drawn.choice(self.times) for _ in "12"), key=lambda it: it.zfill(8))

    def ends(self):
        """Two stops, often two of a trip."""
        if self.often(0.03):
            return [self.drawn.choice(self.stops), "nowhere"]
        if self.often(0.4):
            return self.drawn.choices(self.stops, k=2)
        trips, stops = (column(self.feed["stop_times.txt"], it) for it in ("trip_id", "stop_id"))
        chosen = self.drawn.choice(trips)
        called = [stop for trip, stop in zip(trips, stops) if trip == chosen]
        return sorted(self.drawn.choices(called, k=2), key=called.index)

    def changed_words(self, words):
        words = [word.encode() for word in words]
        for _ in range(self.drawn.choice((1, 1, 2, 4))):
            at = self.drawn.randrange(len(words) + 1)
            if self.often(0.5) and at < len(words):
                change = self.drawn.choice(changes.BYTES)
                words[at] = change(self.drawn, words[at])[:70_000]
            else:
                known = self.drawn.choice(self.known_words()).encode()
                put = known if self.often(0.8) else changes.token(self.drawn)
                words = words[:at] + [put] * self.often(0.7) + words[at + self.often(0.5) :]
        # the system takes no word with a zero byte
        return [word.replace(b"\0", b"0") for word in words[:300]]

    def known_words(self):
        options = ("--change", "--station=60", "--workers", "--help", "-h", *FLAGS)
        others = ("--", "-", "f", "g", "late", "list", f"f@{DAY}", "late:late", "city")
        return (*options, *others, *COMMANDS, *DATES, *TIMES, *self.stops)

    def frequencies(self):
        rows = [b"trip_id,start_time,end_time,headway_secs,exact_times"]
        for _ in range(self.drawn.randrange(4)):
            start = self.drawn.randrange(30)
            span = self.drawn.randrange(1, 5)
            headway = self.drawn.choice((60, 300, 1800, 7200))
            trip = self.drawn.choice(self.trips)
            rows.append(f"{trip},{start}:00:00,{start + span}:00:00,{headway},".encode())
        return b"\n".join(rows) + b"\n"

    def changed_feed(self):
        feed = dict(self.feed)
        if self.often(0.4):
            return feed
        for _ in range(self.drawn.choice((1, 1, 1, 2, 4))):
            name = self.drawn.choice(sorted(feed))
            chance = self.drawn.random()
            if chance < 0.03:
                del feed[name]
            elif chance < 0.05:
                feed[name] = FOLDER
            elif chance < 0.08:
                feed[name] = feed[self.drawn.choice(sorted(feed))]
            elif feed[name] is not FOLDER:
                change = changes.changed_a_little if self.often(0.7) else changes.changed
                feed[name] = change(self.drawn, feed[name])
            if not feed:
                break
        return feed

    def sometimes_changed(self, data):
        return changes.changed(self.drawn, data) if self.often(0.5) else data

    def given(self, command):
        return self.sometimes_changed(self.plain_given(command)) if command in GIVEN else b""

    def plain_given(self, command):
        return GIVEN[command](self) if command in GIVEN else b""

    def ride(self, start=None):
        """A ride that there may be, from a stop or from any."""
        names = ("trip_id", "stop_id", "departure_time", "arrival_time")
        rows = list(zip(*(column(self.feed["stop_times.txt"], name) for name in names)))
        rows = [[trip, stop, it.zfill(8), at.zfill(8)] for trip, stop, it, at in rows]
        trip, stop, departure, _ = self.drawn.choice([it for it in rows if start in (None, it[1])])
        later = [it for it in rows if it[0] == trip and it[3] > departure]
        _, end, _, arrival = self.drawn.choice(later or rows)
        return [trip, stop, departure, end, arrival]

    def likely_claim(self):
        """Words for `verify`, and a claim of one or two rides that may be right."""
        rides = [self.ride()]
        if self.often(0.5):
            rides.append(self.ride(rides[0][3]))
        begin = "0:00:00" if self.often(0.5) else rides[0][2] or "8:00:00"
        words = ["f", self.drawn.choice(DATES), rides[0][1], rides[-1][3], begin]
        lines = [f"arrive {rides[-1][4]} rides {len(rides)}"]
        lines += [" ".join(("  ride", *ride)) for ride in rides]
        return words, "\n".join(lines).encode()

    def as_json(self, given, chance=0.4):
        """A claim as JSON, unless a line of it is bad, and by chance changed a few times."""
        if texts.claim_fault(given, texts.worded(given)):
            return given
        found = jsons.claim_of(given)
        return changes.changed(self.drawn, found) if self.often(chance) else found

    def script(self):
        if self.often(0.3):
            return self.maker.texts["script"]
        lines = ["lane a"]
        for _ in range(self.drawn.randrange(12)):
            first, last = self.two_times()
            ends = " ".join(self.ends())
            since = f"since {self.drawn.randrange(5)} " if self.often(0.3) else ""
            line = self.drawn.choice(
                (
                    f"ask {ends} {first}",
                    f"profile {ends} {first} {last}",
                    f"latest {ends} {last}",
                    f"reach {ends.split()[0]} {first}",
                    f"times {ends.split()[0]} {' '.join(self.departures())}",
                    "lane b",
                    "# remark",
                )
            )
            lines.append(since + line if not line.startswith(("lane", "#")) else line)
        return "\n".join(lines).encode() + b"\n"

    def lines(self):
        """Lines of `live`: those of a script but for the begin of a lane, and items to publish."""
        lines = self.script().split(b"\n")
        if lines[0].startswith(b"lane ") and self.often(0.9):
            lines = lines[1:]
        for _ in range(self.drawn.randrange(3)):
            folder = self.drawn.choice(("f", "g", "g", "h"))
            line = f"publish {folder}@{self.drawn.choice(DATES)}"
            if self.often(0.3):
                line = self.updates().replace(":", " ")
            lines.insert(self.drawn.randrange(len(lines)), line.encode())
        return b"\n".join(lines)

    def origins(self):
        """A file of origins: some stops, and at times a name that is none, or a remark."""
        names = (*self.stops, *self.stops, "nowhere", "# remark", "")
        return "\n".join(self.drawn.choices(names, k=self.drawn.randrange(6))).encode()

    def lates(self):
        if self.often(0.2):
            return self.maker.texts["late"]
        lines = ["# delays"]
        for _ in range(self.drawn.randrange(8)):
            secs = self.drawn.choice((0, 60, 60, 120, 300, 300, 900, 86_400, 86_401, -60, 9))
            trip = "none" if self.often(0.1) else self.drawn.choice(self.trips)
            event = self.drawn.choice((0, 0, 1, 1, 2, 3, 9))
            line = self.drawn.choice(
                (f"late {trip} {event} {secs}", f"cancel {trip}", f"skip {trip} {event}")
            )
            line = f"late-before {trip} {event} {secs}" if self.often(0.1) else line
            day = self.drawn.choice(("day-before", "day-after", "day+2", "day+1"))
            lines.append(f"{line} {day}" if self.often(0.1) else line)
        return "\n".join(lines).encode() + b"\n"

    def claim(self):
        if self.often(0.5):
            return self.maker.texts["claim"]
        lines = [f"arrive {self.drawn.choice(TIMES).zfill(8)} rides {self.drawn.randrange(3)}"]
        for _ in range(self.drawn.randrange(4)):
            times = [time.zfill(8) for time in self.two_times()]
            stops = self.ends()
            if self.often(0.3):
                lines.append(f"  walk {stops[0]} {stops[1]} {self.drawn.randrange(200)}")
            elif self.often(0.2):
                trip = self.drawn.choice(self.trips)
                lines.append(f"  ride {trip} {stops[0]} {times[0]} {stops[1]} {times[1]}")
            else:
                lines.append(" ".join(("  ride", *self.ride())))
        return "\n".join(lines).encode() + b"\n"


# What the commands that read standard input are given.
GIVEN = {
    "serve": Draw.script,
    "live": Draw.lines,
    "verify": Draw.claim,
    "matrix": Draw.origins,
}


def lay_out(case, folder):
    """Writes the files of a case into an empty folder."""
    for name in ("f", "g"):
        os.makedirs(os.path.join(folder, name), exist_ok=True)
    for name, data in case.files.items():
        path = os.path.join(folder, name)
        if data is FOLDER:
            os.mkdir(path)
        else:
            with open(path, "wb") as file:
                file.write(data)
    with open(os.path.join(folder, "given"), "wb") as file:
        file.write(case.given)


def bytes_of(case):
    files = [data for data in case.files.values() if data is not FOLDER]
    return sum(map(len, [*case.words, *files, case.given]))
