"""When one is where: the stops of a feed with their best values from one origin."""
import math
from collections.abc import Iterable, Iterator, Sequence
from dataclasses import dataclass
from operator import attrgetter

from .answers import Choice, Value
from .questions import Ask
from .router import Router
from .stops import Stop

STEPS = (5, 10, 15, 20, 30, 60, 120, 240, 480)
"""Minutes that a band may span."""
COLORS = ("#440154", "#443983", "#31688e", "#21918c", "#35b779", "#90d743", "#fde725")
"""Of the bands, the nearest first: viridis, which most eyes can tell apart."""
COVERED = 0.9
"""The share of the stops for which all bands but the last are made."""


@dataclass(frozen=True, slots=True)
class Place:
    """A stop with coordinates, the best values to it, fewest rides first, and for each a journey,
    if journeys were asked for.
    """

    stop: Stop
    values: tuple[Value, ...]
    journeys: tuple[Choice, ...] = ()

    @property
    def earliest(self) -> Value | None:
        return min(self.values, key=attrgetter("arrival")) if self.values else None


@dataclass(frozen=True, slots=True)
class Isochrone:
    """The stops from one origin at one departure, in seconds since noon minus twelve hours."""

    origin: str
    departure: int
    edition: int
    places: tuple[Place, ...]
    left_out: int
    """How many stops have no coordinates, and so no place."""

    def travel_time(self, place: Place) -> int | None:
        """The seconds from the departure to the earliest arrival."""
        earliest = place.earliest
        return earliest.arrival - self.departure if earliest else None


@dataclass(frozen=True, slots=True)
class Band:
    """Travel times of at least so many minutes, and of fewer than the end; without an end there are
    no further bands.
    """

    first: int
    end: int | None
    color: str


def isochrone(
    router: Router,
    stops: dict[str, Stop],
    origin: str,
    departure: int,
    with_journeys: bool = False,
) -> Isochrone:
    """Asks for the values to all stops, and for the journeys if they are wanted: one more question
    a stop.
    """
    answer = router.reach(origin, departure)
    places = [
        Place(stops[reached.stop], reached.values)
        for reached in answer
        if reached.stop in stops and stops[reached.stop].has_place
    ]
    if with_journeys:
        places = [*with_journeys_to(router, places, origin, departure)]
    left_out = len(answer) - len(places)
    return Isochrone(origin, departure, answer.edition, tuple(places), left_out)


def with_journeys_to(
    router: Router, places: list[Place], origin: str, departure: int
) -> Iterator[Place]:
    """The places with the journeys to those that can be reached."""
    asked = (Ask(origin, place.stop.id, departure) for place in places if place.values)
    answers = router.answers(asked)
    for place in places:
        journeys = next(answers).values if place.values else ()
        yield Place(place.stop, place.values, journeys)


def bands_of(found: Isochrone) -> list[Band]:
    """Bands of equal spans, of which the last takes what is farther than most stops are."""
    times = sorted(time for time in map(found.travel_time, found.places) if time is not None)
    most = times[math.ceil(len(times) * COVERED) - 1] / 60 if times else 0
    spans = len(COLORS) - 1
    step = next((step for step in STEPS if step * spans > most), STEPS[-1])
    ends: Iterable[int | None] = [*(step * (at + 1) for at in range(spans)), None]
    return [Band(step * at, end, color) for at, (end, color) in enumerate(zip(ends, COLORS))]


def band_of(bands: Sequence[Band], seconds: int) -> Band:
    return next(band for band in bands if band.end is None or seconds < band.end * 60)
