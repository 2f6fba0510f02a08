"""What comes back, as values that don't change.

Arrivals and departures are seconds since noon minus twelve hours; `times.clock` shows them.
"""
from collections.abc import Callable, Iterator
from dataclasses import dataclass
from typing import Any, Generic, TypeVar

from .questions import Ask, Latest, Profile, Question, Reach, Times

Json = dict[str, Any]


@dataclass(frozen=True, slots=True)
class Walk:
    """A leg by a footpath, from stop to stop; it takes so many seconds."""

    origin: str
    destination: str
    seconds: int


@dataclass(frozen=True, slots=True)
class Ride:
    """A leg on a trip, from stop to stop. The trip's name has its start if it runs by frequency, as
    `TRIP#08:00:00`; its service day is so many days after the date, -1 to 2.
    """

    trip: str
    origin: str
    departure: int
    destination: str
    arrival: int
    day: int


Leg = Walk | Ride


@dataclass(frozen=True, slots=True)
class Choice:
    """A best value of `ask`, and the legs of a journey that has it."""

    arrival: int
    rides: int
    legs: tuple[Leg, ...]


@dataclass(frozen=True, slots=True)
class Offer:
    """A slot of a profile, and the legs of a journey that has it."""

    departure: int
    arrival: int
    rides: int
    legs: tuple[Leg, ...]


@dataclass(frozen=True, slots=True)
class Departure:
    """A latest departure, and the legs of a journey that has it."""

    departure: int
    rides: int
    legs: tuple[Leg, ...]


@dataclass(frozen=True, slots=True)
class Value:
    """A best value to a stop."""

    arrival: int
    rides: int


@dataclass(frozen=True, slots=True)
class Reached:
    """A stop, and the best values to it, fewest rides first: none where nothing leads there."""

    stop: str
    values: tuple[Value, ...]


@dataclass(frozen=True, slots=True)
class Spread:
    """How many of some departures reach a stop, and its travel times over all of them, in seconds,
    by nearest rank: None where the departure of the rank doesn't reach it.
    """

    stop: str
    reached: int
    departures: int
    least: int | None
    percentile_5: int | None
    percentile_25: int | None
    percentile_50: int | None
    percentile_75: int | None
    percentile_95: int | None
    greatest: int | None


@dataclass(frozen=True, slots=True)
class Cell:
    """A cell of a matrix: what `Spread` has of a stop, from an origin, by an edition."""

    origin: str
    edition: int
    stop: str
    reached: int
    departures: int
    least: int | None
    percentile_5: int | None
    percentile_25: int | None
    percentile_50: int | None
    percentile_75: int | None
    percentile_95: int | None
    greatest: int | None


V = TypeVar("V")


@dataclass(frozen=True, slots=True)
class Answer(Generic[V]):
    """The values that answer a question, in the order of the command's lines, by an edition."""

    edition: int
    values: tuple[V, ...]

    def __iter__(self) -> Iterator[V]:
        return iter(self.values)

    def __len__(self) -> int:
        return len(self.values)


@dataclass(frozen=True, slots=True)
class Edition:
    """A day that was published: its number, and how many trips, lines and kept transfers it
    has.
    """

    number: int
    trips: int
    lines: int
    kept: int


@dataclass(frozen=True, slots=True)
class Amended:
    """A day that was amended by updates and published: its number, how many trips these touch, so
    that their transfers may be others, and how many kept transfers it has.
    """

    number: int
    touched: int
    kept: int


@dataclass(frozen=True, slots=True)
class TravelTimes:
    """How many seconds after the departure one is at each stop at the earliest, by any number of
    rides. Stops that nothing leads to are left out.
    """

    origin: str
    edition: int
    seconds: dict[str, int]


def read_leg(said: Json) -> Leg:
    if "trip" not in said:
        return Walk(said["from"], said["to"], said["seconds"])
    ends = said["from"], said["departure_seconds"], said["to"], said["arrival_seconds"]
    return Ride(said["trip"], *ends, day=said.get("day", 0))


def read_legs(said: Json) -> tuple[Leg, ...]:
    return tuple(map(read_leg, said["legs"]))


def read_choice(said: Json) -> Choice:
    return Choice(said["arrive_seconds"], said["rides"], read_legs(said))


def read_offer(said: Json) -> Offer:
    times = said["leave_seconds"], said["arrive_seconds"]
    return Offer(*times, said["rides"], read_legs(said))


def read_departure(said: Json) -> Departure:
    return Departure(said["leave_seconds"], said["rides"], read_legs(said))


def read_reached(said: list[Any]) -> Reached:
    """A stop comes as a pair, of its id and its values, each a triple."""
    stop, values = said
    return Reached(stop, tuple(Value(arrival, rides) for _, arrival, rides in values))


def read_spread(said: list[Any]) -> Spread:
    stop, reached, departures, times = said
    return Spread(stop, reached, departures, *times)


READERS: dict[type[Question], Callable[[Any], Any]] = {
    Ask: read_choice,
    Profile: read_offer,
    Latest: read_departure,
    Reach: read_reached,
    Times: read_spread,
}


def read_answer(question: Question, said: Json) -> Answer[Any]:
    read = READERS[type(question)]
    return Answer(said["edition"], tuple(map(read, said["values"])))


def read_travel_times(question: Reach, departure: int, said: Json) -> TravelTimes:
    """The same reply as that of `Reach`, of which only the earliest arrivals are kept."""
    seconds = {
        stop: min(arrival for _, arrival, _ in values) - departure
        for stop, values in said["values"]
        if values
    }
    return TravelTimes(question.origin, said["edition"], seconds)


def read_cells(question: Times, said: Json) -> list[Cell]:
    return [
        Cell(question.origin, said["edition"], stop, reached, departures, *times)
        for stop, reached, departures, times in said["values"]
    ]


def read_edition(said: Json) -> Edition:
    return Edition(said["edition"], said["trips"], said["lines"], said["kept"])


def read_amended(said: Json) -> Amended:
    return Amended(said["edition"], said["touched"], said["kept"])
