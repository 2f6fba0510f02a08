"""What a run of a case may come to, by the documents, and whether it did."""
import os

from said import answers, checks, claims, feeds, jsons, left, lived, matrix, replies, served, texts
from said import warned
from said import words as command_lines
from said.journeys import Options, Timetable
from said.words import time_of

# A run takes at most so many seconds of processor time: at once, for each byte, for each event of
# the day and each request.
AT_ONCE, BY_BYTE, BY_EVENT = 0.5, 2e-6, 2e-5
# Over feeds with at most so many events and stops the answer is found again, the plain way.
FEW_EVENTS, FEW_STOPS = 600, 20
# Faults of footpaths, which are looked at last, where they aren't found again.
LAW = ("18 ", "19 ")
CLOSING = ("20 TooMany footpaths", "22 ")
# The status of a check that tells faults.
FAULTS_FOUND = 10
READ_FAULT = 4, ""


class Ended:
    """A run: its status or the signal that ended it, what it wrote, and its seconds."""

    def __init__(self, status, out, err, seconds):
        self.status, self.out, self.err, self.seconds = status, out, err, seconds

    def said(self):
        return self.status, self.out, self.err


def as_text(case, ended):
    """What a run with `--json` wrote, as the texts for which it stands; or jsons.Other."""
    if not jsons.asks_json(case.words) or not isinstance(ended.status, int):
        return ended
    out, err = ended.out, jsons.error_text(ended.status, ended.err)
    if command_lines.are_valid(case.words):
        options, (command, *_) = command_lines.parted([word.decode() for word in case.words])
        if out and not (command == "matrix" and "--csv" in options):
            out = jsons.text_of(command, out, case.given)
        elif not out and ended.status == 0 and command in jsons.NO_JOURNEY:
            out = "no journey\n"
    return Ended(ended.status, out, err, ended.seconds)


class Judge:
    """What may come of a case that is laid out in a folder."""

    def __init__(self, case, folder):
        self.case, self.folder = case, folder
        self.events = 0
        self.is_valid = command_lines.are_valid(case.words)
        self.command, self.rest, self.options = "", [], Options()
        self.is_mirrored = self.is_table = self.is_lenient = False
        self.feed = self.timetable = None
        # faults that are told of the feed that was read last, as they are shown, and whether one of
        # its footpaths may follow
        self.told, self.may_break_law = [], False
        self.items, self.feeds, self.claim, self.origins = [], [], None, None
        # the last published day of `serve` or `live`, with its feed, where it is small
        self.last_day = None
        if self.is_valid:
            plain = [word.decode() for word in case.words]
            options, (self.command, *self.rest) = command_lines.parted(plain)
            self.options = options_of(options)
            self.is_mirrored, self.is_table = "--mirror" in options, "--csv" in options
            self.is_lenient = "--lenient" in options

    def wrong(self, ended):
        """What is wrong with what came, or None."""
        if not isinstance(ended.status, int):
            return f"ended by {ended.status}"
        form = self.wrong_form(ended)
        if form:
            return form
        fault = ended.err.partition("refused: ")[2].rstrip("\n") if ended.status else ""
        allowed = self.allowed()
        if not any(may_be(one, ended.status, fault) for one in allowed):
            return f"ended with {ended.status} {fault}, and not with one of {allowed}"
        wrong = self.wrong_end(ended) if self.is_whole(ended) else None
        if wrong:
            return wrong
        most = AT_ONCE + BY_BYTE * self.bytes() + BY_EVENT * self.events
        if ended.seconds > most:
            return f"took {ended.seconds:.2f} seconds, and not {most:.2f}"
        return None

    def bytes(self):
        sizes = [len(word) for word in self.case.words] + [len(self.case.given)]
        for folder, _, names in os.walk(self.folder):
            sizes += [os.path.getsize(os.path.join(folder, name)) for name in names]
        return sum(sizes)

    def is_whole(self, ended):
        """Whether a run wrote all that it had to."""
        return ended.status == 0 or (ended.status, self.command) == (FAULTS_FOUND, "check")

    def wrong_form(self, ended):
        if self.is_whole(ended):
            return None
        if ended.out:
            return "standard output isn't empty"
        if not ended.err.endswith("\n") or ended.err.count("\n") != 1:
            return "standard error isn't one line"
        if answers.fault_in(ended.status, ended.err[:-1], self.command) is None:
            return f"status {ended.status} has another line on standard error"
        return None

    def wrong_end(self, ended):
        line = checks.left_out(self.told) if self.is_lenient else ""
        if ended.err != (line if self.command in checks.OF_A_DAY else ""):
            return f"standard error isn't {line or 'empty'}"
        names = [*self.feed.stops, *self.feed.calls, *self.rest] if self.feed else []
        if any(len(name.splitlines()) > 1 for name in names):
            return None
        if self.command == "check":
            return self.wrong_check(ended)
        return self.wrong_answer(ended.out)

    def wrong_check(self, ended):
        found = checks.told_in(ended.out)
        if found is None or bool(found) != (ended.status == FAULTS_FOUND):
            return "the check has another form"
        of_law = [fault for fault in found[-1:] if fault.startswith(self.law())]
        wanted = checks.text_of(self.told + (of_law if self.may_break_law else []))
        faults, warnings = checks.parted(ended.out)
        if faults != wanted:
            return f"the check isn't {wanted}"
        where, (folder, date, *_) = self.folder, self.rest
        known = warned.warnings_of(where, folder, date, self.options, is_small)
        return None if warned.is_right(warnings, known) else f"the warnings aren't {known}"

    def wrong_answer(self, out):
        if not answers.is_answer(self.command, out):
            return "the answer has another form"
        if self.command == "serve" and self.items:
            return self.wrong_served(out)
        if self.command == "live" and self.items:
            return self.wrong_lived(out)
        if self.command == "matrix" and self.timetable:
            return self.wrong_matrix(out)
        if self.command not in answers.PLACES:
            return None
        asked = self.rest[3 if self.command == "late" else 2 :]
        ends = asked[: 1 if self.command in ("reach", "times") else 2]
        unknown = next((name for name in ends if not is_place(self.feed, name)), None)
        if unknown is not None:
            right = out.endswith(f"unknown stop {unknown}\n")
            return None if right else f"the answer isn't unknown stop {unknown}"
        if self.timetable and self.command == "verify":
            found = [self.timetable.place(name) for name in ends]
            wanted = claims.verdict(self.timetable, self.claim, *found, time_of(asked[2]))
            told = numbers_or_text(out)
            return None if told == wanted else f"the verdict isn't {wanted}"
        if self.timetable:
            told = replies.told(self.command, out)
            wanted = replies.wanted(self.command, asked, self.timetable)
            return None if told == wanted else f"the answer isn't {wanted}"
        return None

    def is_known(self, edition, name):
        return is_place(self.feeds[edition - 1], name)

    def wrong_served(self, out):
        try:
            served.Reader(out, self.items, self.is_known).read(served.lanes_of(self.case.given))
        except served.Wrong as wrong:
            return f"it served {wrong}"
        return None

    def wrong_lived(self, out):
        reader = lived.Reader(out, self.items, self.is_known)
        try:
            reader.read_all(lived.lines_of(self.case.given), self.is_mirrored)
        except served.Wrong as wrong:
            return f"it wrote {wrong}"
        return None

    def wrong_matrix(self, out):
        def is_known(name):
            return is_place(self.feed, name)

        wanted = matrix.wanted(self.origins, self.rest[3:], self.timetable, is_known)
        told = matrix.rows_told(out) if self.is_table else matrix.told(out)
        if self.is_table:
            wanted = list(matrix.rows_wanted(wanted, self.timetable.stops))
        return None if told == wanted else f"the matrix isn't {wanted}"

    def allowed(self):
        """The statuses that may come, each with the fault that is shown, or the begin of it."""
        if not self.is_valid:
            return [(2, "")]
        if self.command == "city":
            return [(0, "")]
        if self.command == "serve":
            return self.allowed_of_serve()
        if self.command == "live":
            return self.allowed_of_live()
        found = self.read_feed(self.rest[0])
        if self.command == "check":
            return self.allowed_of_check(found)
        if found:
            return [found]
        if self.is_small():
            self.timetable = Timetable(self.feed, self.rest[1], self.options)
            if self.timetable.fault:
                return [(3, self.timetable.fault)]
            return self.allowed_of_texts()
        return [*self.allowed_of_law(), *self.allowed_of_texts()]

    def allowed_of_check(self, found):
        """The same of a check, of whose feed this is known: all that is told then is."""
        if found == READ_FAULT:
            return [found]
        if not found and self.is_small():
            self.timetable = Timetable(self.feed, self.rest[1], self.options)
            found = self.timetable.fault and (3, self.timetable.fault)
        if found:
            self.told.append(found[1])
        self.may_break_law = not found and not self.timetable
        allowed = [(FAULTS_FOUND if self.told else 0, "")]
        return [*allowed, (FAULTS_FOUND, "")] if self.may_break_law else allowed

    def law(self):
        """How the faults of footpaths begin."""
        return CLOSING if self.options.close else LAW

    def allowed_of_law(self):
        return [(3, fault) for fault in self.law()]

    def allowed_of_serve(self):
        fault = texts.script_fault(self.case.given)
        words = [(word, command_lines.late_path(word)) for word in self.rest]
        items = [self.read_item(*item) for item in words]
        self.events *= 1 + self.case.given.count(b"\n")
        found = items[0]
        if all(items) and not fault and isinstance(found, Timetable):
            self.items = [item_of(*it, found) for it, found in zip(words, items)]
        if found and not isinstance(found, Timetable):
            return [found, *([(7, fault)] if fault else [])]
        allowed = [(7, fault)] if fault else [(0, "")]
        return allowed if found else [*allowed, *self.allowed_of_law()]

    def allowed_of_live(self):
        lines = lived.lines_of(self.case.given)
        words = [(word, command_lines.late_path(word)) for word in self.rest]
        words += filter(None, map(lived.published, lines))
        items = [self.read_item(*item) for item in words]
        self.events *= 1 + len(lines)
        found = items[0]
        if found and not isinstance(found, Timetable):
            return [found]
        if all(items):
            self.items = [item_of(*it, found) for it, found in zip(words, items)]
        return [(0, "")] if found else [(0, ""), *self.allowed_of_law()]

    def read_item(self, word, path):
        """The timetable of an item of `serve` or `live`, if it is small, or how the program ends
        without it.
        """
        if path is not None:
            return self.read_updates(path)
        folder, _, date = word.rpartition("@")
        found = self.read_feed(folder)
        if found:
            return found
        if not self.is_small():
            self.last_day = None
            return None
        timetable = Timetable(self.feed, date, self.options)
        if timetable.fault:
            return 3, timetable.fault
        self.last_day = self.feed, date
        self.feeds.append(self.feed)
        return timetable

    def read_updates(self, path):
        """The last day amended by a file, or the fault of that."""
        if self.last_day is None:
            return None
        feed, date = self.last_day
        timetable = Timetable(feed, date, self.options)
        try:
            data = self.bytes_at(path)
        except OSError:
            return READ_FAULT
        fault = "6 MissingFile" if data is None else texts.late_fault(data)
        fault = fault or replies.amend(timetable.trips, data)
        if fault:
            return 8, fault
        self.events += feed.events
        self.feeds.append(feed)
        return timetable

    def bytes_at(self, path):
        return feeds.bytes_of(os.path.join(self.folder, path))

    def is_small(self):
        return is_small(self.feed)

    def allowed_of_texts(self):
        if self.command == "late":
            return self.allowed_of_late()
        if self.command == "matrix":
            return self.allowed_of_matrix()
        if self.command != "verify":
            return [(0, "")]
        is_json = jsons.asks_json(self.case.words)
        lines = (jsons.claim_lines if is_json else texts.worded)(self.case.given)
        fault = texts.claim_fault(self.case.given, lines)
        if self.timetable and fault != "4 TooLong":
            self.claim = claims.claim_of(self.timetable, lines)
            return [(9, self.claim) if isinstance(self.claim, str) else (0, "")]
        earlier = [(9, "2 UnknownStop"), (9, "3 NoSuchRide")]
        return [(9, fault), *earlier] if fault else [(0, ""), *earlier]

    def allowed_of_late(self):
        try:
            data = self.bytes_at(self.rest[2])
        except OSError:
            return [READ_FAULT]
        fault = "6 MissingFile" if data is None else texts.late_fault(data)
        if not fault and self.timetable:
            fault = replies.amend(self.timetable.trips, data)
            return [(8, fault)] if fault else [(0, "")]
        names = ("1 UnknownTrip", "2 TimeRunsBack", "3 OutOfRange", "4 BadEvent")
        return [(8, fault)] if fault else [(0, ""), *((8, name) for name in names)]

    def allowed_of_matrix(self):
        try:
            data = self.case.given if self.rest[2] == "-" else self.bytes_at(self.rest[2])
        except OSError:
            return [READ_FAULT]
        fault = "6 MissingFile" if data is None else texts.origins_fault(data)
        if fault:
            return [(7, fault)]
        self.origins = matrix.origins_of(data)
        self.events *= 1 + len(self.origins)
        return [(0, "")]

    def read_feed(self, folder):
        """How the program ends if the feed has a fault that ends it, and what is in it else."""
        read = left.left_of if self.is_lenient or self.command == "check" else left.whole
        try:
            found = read(self.folder, folder)
        except OSError:
            return READ_FAULT
        self.told = list(map(str, found.told))
        if found.fault:
            return 3, str(found.fault)
        self.feed, self.events = found.feed, self.events + found.feed.events
        return None


def numbers_or_text(verdict):
    """The value that a verdict tells, or itself."""
    values = replies.numbers_of(answers.OWN_VALUE.findall(verdict))
    return values[0] if values else verdict.rstrip("\n")


def is_small(feed):
    return feed.events <= FEW_EVENTS and len(feed.stops) <= FEW_STOPS


def is_place(feed, name):
    kind = feed.stops.get(name, ("2", ""))[0]
    return kind in (*feeds.PLATFORM, feeds.STATION)


def item_of(word, path, found):
    """What became of an item: its timetable, or how the program would end without it."""
    if isinstance(found, Timetable):
        return served.Item(word, path is None, found)
    return served.Item(word, path is None, fault=found[1] or "read fault")


def options_of(options):
    """What the options of a valid command line ask of a timetable."""
    given = (options.get(name, other) for name, other in (("--change", 0), ("--station", None)))
    return Options(*given, "--close" in options, options.get("--days", 1))


def may_be(allowed, status, fault):
    """Whether a status and a fault are what is allowed, whose fault may be the begin of one."""
    return status == allowed[0] and (fault + " ").startswith((allowed[1] + " ").replace("  ", " "))
