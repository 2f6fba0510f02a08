"""A router over one process of `router live --json`."""
import datetime
import functools
import itertools
import math
import os
import shutil
import time
import weakref
from collections import deque
from collections.abc import Callable, Iterable, Iterator
from concurrent.futures import Future, wait
from types import TracebackType
from typing import Any, Generic, Self, TypeVar

from .answers import (
    Amended,
    Answer,
    Cell,
    Choice,
    Departure,
    Edition,
    Json,
    Offer,
    Reached,
    Spread,
    TravelTimes,
    read_amended,
    read_answer,
    read_cells,
    read_edition,
    read_travel_times,
)
from .faults import (
    FeedRefused,
    LineRefused,
    NoProgram,
    NotPublished,
    Refused,
    UnknownStop,
    UpdatesRefused,
)
from .process import Process
from .questions import Ask, Latest, Profile, Question, Reach, Times, line
from .times import Time, seconds
from .updates import Update, remove, write_updates

T = TypeVar("T")
V = TypeVar("V")
Date = str | datetime.date
"""A day of the feed's calendar, as `20260302` if it is a text."""

PROGRAM = "ROUTER"
"""The variable of the environment that names the program."""
AHEAD = 8
"""How many questions a lane are on their way when several are asked at once."""
NUDGE = 0.05
"""The seconds between two looks at whether a day is published."""


class Publication(Generic[V]):
    """A day that is being published, or amended."""

    def __init__(
        self,
        day: str,
        nudge: Callable[[], None],
        read: Callable[[Json], V],
        refused: Callable[[Json], Refused] = FeedRefused,
    ):
        self.day = day
        self._nudge = nudge
        self._read = read
        self._refused = refused
        self._edition: Future[V] = Future()
        self._remove: Callable[[], object] = lambda: None

    def wait(self, timeout: float | None = None) -> V:
        """The edition of the day, once it is there: what is asked from then on is answered by it or
        a later one. FeedRefused, UpdatesRefused or NotPublished where there is none; TimeoutError
        after so many seconds.
        """
        end = time.monotonic() + (math.inf if timeout is None else timeout)
        while not self._edition.done():
            self._nudge()
            left = end - time.monotonic()
            if left <= 0:
                raise TimeoutError(f"{self.day} isn't published after {timeout} seconds")
            wait([self._edition], min(left, NUDGE))
        return self._edition.result()

    def remove_behind(self, path: str) -> None:
        """Has a file that was made for it removed: once it is told, or nobody waits for it."""
        removed = self._remove = weakref.finalize(self, remove, path, os.getpid())
        self._edition.add_done_callback(lambda _: removed())

    def tell(self, said: Json) -> None:
        """What the process says of the day."""
        # (before anybody who waits goes on)
        self._remove()
        if "fault" in said:
            self._edition.set_exception(self._refused(said["fault"]))
        elif "message" in said:
            self._edition.set_exception(NotPublished(self.day, said["message"]))
        else:
            self._edition.set_result(self._read(said))


class Router:
    """Answers questions about one service day of a GTFS feed, and about each that is published
    after it, by the last edition that is there; each answer says which.

    It may be used by several threads at once: what they ask at a time is one turn of the process,
    whose lanes share it. It is a context manager, and ends its process when it is left.

    :param feed: the folder of the unpacked feed.
    :param date: the service day.
    :param change: the seconds that a change within a stop takes where transfers.txt doesn't say.
    :param station: the seconds from platform to platform of a station where transfers.txt doesn't
        say; None if there is no way then.
    :param close: whether footpaths are closed over chains, as most feeds need.
    :param days: of how many days, the date being the first, all trips count, 1 to 3.
    :param lanes: how many threads answer, 1 to 64.
    :param mirror: whether `latest` may be asked, which takes a second network.
    :param program: the program `router`; else what the variable ROUTER of the environment names,
        or the one on the path.
    :raises FeedRefused: where the feed has a fault.
    """

    def __init__(
        self,
        feed: str | os.PathLike[str],
        date: Date,
        *,
        change: int = 120,
        station: int | None = None,
        close: bool = True,
        days: int = 1,
        lanes: int = 4,
        mirror: bool = False,
        program: str | os.PathLike[str] | None = None,
    ):
        options = [f"--change={change:d}", f"--lanes={lanes:d}"]
        options += [] if station is None else [f"--station={station:d}"]
        options += ["--close"] if close else []
        options += ["--mirror"] if mirror else []
        options += [] if days == 1 else [f"--days={days:d}"]
        day = day_of(feed, date)
        self._mirror = mirror
        self._ahead = AHEAD * lanes
        first = Publication(day, self._nudge, read_edition)
        self._publications: deque[Publication[Any]] = deque([first])
        self._process = Process([found(program), "--json", *options, "live", day], self._tell)
        try:
            self.first_edition = first.wait()
        except BaseException:
            self.close(0)
            raise

    def __enter__(self) -> Self:
        return self

    def __exit__(
        self,
        kind: type[BaseException] | None,
        error: BaseException | None,
        trace: TracebackType | None,
    ) -> None:
        self.close()

    def close(self, patience: float = 5.0) -> None:
        """Ends the process, once what was asked is answered, or else after so many seconds."""
        self._process.close(patience)

    @property
    def pid(self) -> int:
        """The number of the process."""
        return self._process.pid

    def ask(self, origin: str, destination: str, departure: Time) -> Answer[Choice]:
        """Every best value, of arrival and number of rides, of the journeys that leave no earlier
        than the departure, fewest rides first, each with the legs of one journey.
        """
        return self._ask(Ask(origin, destination, departure)).result()

    def profile(self, origin: str, destination: str, first: Time, last: Time) -> Answer[Offer]:
        """Every best departure from the first time to the last, last departure first, each with its
        arrival, its number of rides, and the legs of one journey.
        """
        return self._ask(Profile(origin, destination, first, last)).result()

    def latest(self, origin: str, destination: str, arrival: Time) -> Answer[Departure]:
        """For each number of rides worth taking the latest departure that arrives by a time, each
        with the legs of one journey. The router has to be one with a mirror.
        """
        return self._ask(Latest(origin, destination, arrival)).result()

    def reach(self, origin: str, departure: Time) -> Answer[Reached]:
        """The best values to each stop, in the order of stops.txt, without journeys."""
        return self._ask(Reach(origin, departure)).result()

    def times(
        self, origin: str, first: Time, last: Time, step: int, rides: int | None = None
    ) -> Answer[Spread]:
        """Travel times to each stop, in the order of stops.txt, over departures from the first to
        the last, one each so many seconds, with at most so many rides.
        """
        return self._ask(Times(origin, first, last, step, rides)).result()

    def matrix(
        self,
        origins: Iterable[str] | str,
        first: Time,
        last: Time,
        step: int,
        rides: int | None = None,
    ) -> Iterator[Cell]:
        """The same from many origins, or one: a cell for each origin and each stop, in order.
        `pandas` makes a table of them: `DataFrame(router.matrix(..))`.
        """
        asked = (Times(origin, first, last, step, rides) for origin in each(origins))
        rows = self._in_order(
            self._send(it, functools.partial(read_cells, it)) for it in asked
        )
        return itertools.chain.from_iterable(rows)

    def answers(self, questions: Iterable[Question]) -> Iterator[Answer[Any]]:
        """The answers to questions, in order. Some are asked ahead, so that all lanes have work. An
        exception in place of an answer is the last.
        """
        return self._in_order(map(self._ask, questions))

    def travel_times(
        self, origins: Iterable[str] | str, departure: Time
    ) -> Iterator[TravelTimes]:
        """For each of many origins, or for one, in order, the travel times to all stops: by a
        one-to-all search and a reply with a value for every stop.
        """
        asked = (Reach(origin, departure) for origin in each(origins))
        return self._in_order(
            self._send(it, functools.partial(read_travel_times, it, seconds(departure)))
            for it in asked
        )

    def publish(self, feed: str | os.PathLike[str], date: Date) -> Publication[Edition]:
        """Has a further day read and published, while questions are answered by the edition that is
        there.
        """
        day = day_of(feed, date)
        return self._queue(line("publish", day), Publication(day, self._nudge, read_edition))

    def delays(
        self, updates: str | os.PathLike[str] | Iterable[Update]
    ) -> Publication[Amended]:
        """Has the last day that was published amended by updates, and published, while questions
        are answered by the edition that is there. The updates are those of a file, or of a list;
        what earlier ones said counts no more.
        """
        if isinstance(updates, (str, os.PathLike)):
            path = os.path.abspath(updates)
            return self._queue(line("late", path), self._amendment(path))
        path = write_updates(updates)
        publication = self._amendment(path)
        publication.remove_behind(path)
        return self._queue(line("late", path), publication)

    def _ask(self, question: Question) -> Future[Answer[Any]]:
        if isinstance(question, Latest) and not self._mirror:
            raise ValueError("latest asks for a router with mirror=True")
        return self._send(question, functools.partial(read_answer, question))

    def _send(self, question: Question, read: Callable[[Json], T]) -> Future[T]:
        return self._process.ask(question.line(), functools.partial(read_reply, read))

    def _in_order(self, asked: Iterator[Future[T]]) -> Iterator[T]:
        """The results of questions, which are asked as they are drawn."""
        ahead: deque[Future[T]] = deque()
        for future in asked:
            ahead.append(future)
            if len(ahead) >= self._ahead:
                yield ahead.popleft().result()
        while ahead:
            self._process.refuse_elsewhere()
            yield ahead.popleft().result()

    def _amendment(self, path: str) -> Publication[Amended]:
        return Publication(f"late:{path}", self._nudge, read_amended, UpdatesRefused)

    def _queue(self, asked: str, publication: Publication[V]) -> Publication[V]:
        def queue(said: Json) -> Publication[V]:
            """Replies come in the order of the lines, so days queue up in that order too."""
            self._publications.append(publication)
            return publication

        return self._process.ask(asked, lambda said: read_reply(queue, said)).result()

    def _tell(self, said: Json) -> None:
        """Days are published, and told, in the order in which they queue up."""
        publication = self._publications.popleft()
        if said["day"] != publication.day:
            raise ValueError(f"news of {said['day']} in place of {publication.day}")
        publication.tell(said)

    def _nudge(self) -> None:
        self._process.nudge()


def read_reply(read: Callable[[Json], T], said: Json) -> T:
    if "fault" in said:
        raise LineRefused(said["fault"])
    if "unknown_stop" in said:
        raise UnknownStop(said["unknown_stop"], said["edition"])
    return read(said)


def each(origins: Iterable[str] | str) -> Iterable[str]:
    """The origins; a text, which Python would take for its letters, is one."""
    return [origins] if isinstance(origins, str) else origins


def day_of(feed: str | os.PathLike[str], date: Date) -> str:
    """The word of a day. The folder is the whole path, wherever the process runs."""
    written = date if isinstance(date, str) else f"{date:%Y%m%d}"
    return f"{os.path.abspath(feed)}@{written}"


def found(program: str | os.PathLike[str] | None) -> str:
    """The path of the program."""
    name = os.fspath(program or os.environ.get(PROGRAM) or "router")
    path = shutil.which(name)
    if path is None:
        raise NoProgram(f"there is no program {name}: program=, or {PROGRAM}, names one")
    return path
