"""Maps as SVG."""
import math
from collections.abc import Callable, Iterable, Sequence
from xml.etree.ElementTree import Element

from .elements import add
from .isochrone import Band, Isochrone, Place, band_of
from .stops import Stop
from .times import clock

SIZE = 1000
MARGIN = 30
UNREACHED = "#b0b4b8"
PLAIN = "#d5d8db"
"""The colour of stops of which nothing is told."""


class Projection:
    """Where stops are on a map, as high and wide as SIZE at most: degrees of longitude are as much
    shorter than those of latitude as they are in the middle of the map.
    """

    def __init__(self, stops: Iterable[Stop]):
        places = [(stop.longitude, stop.latitude) for stop in stops if stop.has_place]
        longitudes, latitudes = zip(*places) if places else ((0.0,), (0.0,))
        self.west, self.north = min(longitudes), max(latitudes)
        middle = (self.north + min(latitudes)) / 2
        self.shorter = max(math.cos(math.radians(middle)), 0.01)
        width = (max(longitudes) - self.west) * self.shorter
        height = self.north - min(latitudes)
        self.scale = (SIZE - 2 * MARGIN) / max(width, height, 1e-6)
        self.width = round(width * self.scale) + 2 * MARGIN
        self.height = round(height * self.scale) + 2 * MARGIN

    def at(self, stop: Stop) -> tuple[float, float] | None:
        """The place of a stop, from the left and from the top; None without coordinates."""
        if stop.longitude is None or stop.latitude is None:
            return None
        x = (stop.longitude - self.west) * self.shorter * self.scale + MARGIN
        y = (self.north - stop.latitude) * self.scale + MARGIN
        return round(x, 1), round(y, 1)


def add_map(parent: Element, projection: Projection, title: str) -> Element:
    """Adds an empty map."""
    box = f"0 0 {projection.width} {projection.height}"
    drawing = add(parent, "svg", viewBox=box, role="img", aria_label=title)
    # what stands at both ends of each leg of a journey
    marker = add(add(drawing, "defs"), "marker", id="end", viewBox="-5 -5 10 10")
    add(marker, "circle", r=3.5)
    return drawing


def radius_of(stops: Iterable[Stop]) -> float:
    """The radius of stops, of which there are so many: platforms often share a place."""
    count = len({(stop.longitude, stop.latitude) for stop in stops})
    return round(min(9.0, max(1.5, 240 / math.sqrt(count + 1))), 1)


def add_stops(
    drawing: Element,
    projection: Projection,
    found: Isochrone,
    bands: Sequence[Band],
    link: Callable[[Stop], str] | None = None,
) -> None:
    """Adds the stops of an isochrone, the nearest on top, each by its place in it; with a link they
    lead somewhere.
    """
    radius = radius_of(place.stop for place in found.places)
    numbered = list(enumerate(found.places))
    numbered.sort(key=lambda it: -travel_time(found, it[1]))
    for number, place in numbered:
        time = found.travel_time(place)
        color = UNREACHED if time is None else band_of(bands, time).color
        within = add(drawing, "a", href=link(place.stop)) if link else drawing
        add_stop(within, projection, place.stop, radius, color, told(place), number)


def travel_time(found: Isochrone, place: Place) -> float:
    time = found.travel_time(place)
    return math.inf if time is None else time


def told(place: Place) -> str:
    """What is told of a stop when one points at it."""
    earliest = place.earliest
    return f"{place.stop.name}: {clock(earliest.arrival) if earliest else 'no journey'}"


def add_stop(
    parent: Element,
    projection: Projection,
    stop: Stop,
    radius: float,
    color: str,
    text: str,
    number: int | None = None,
) -> None:
    at = projection.at(stop)
    if at:
        x, y = at
        circle = add(
            parent, "circle", class_="stop", cx=x, cy=y, r=radius, fill=color, data_at=number
        )
        add(circle, "title", text)


def add_route(drawing: Element, projection: Projection, stops: Iterable[Stop] = ()) -> None:
    """Adds the way of a journey over these stops, as far as they have coordinates."""
    points = [at for stop in stops if (at := projection.at(stop))]
    line = " ".join(f"{x},{y}" for x, y in points)
    add(drawing, "polyline", points=line, class_="route")


def add_legend(parent: Element, found: Isochrone, bands: Sequence[Band]) -> None:
    """Adds what the colours mean, and how many stops have each."""
    legend = add(parent, "ul", class_="legend")
    times = [found.travel_time(place) for place in found.places]
    reached = [time for time in times if time is not None]
    for band in bands:
        count = sum(band_of(bands, time) == band for time in reached)
        span = f"{band.first} to {band.end}" if band.end else f"{band.first} and more"
        add_row(legend, band.color, f"{span} minutes", count)
    add_row(legend, UNREACHED, "no journey", len(times) - len(reached))


def add_row(legend: Element, color: str, text: str, count: int) -> None:
    row = add(legend, "li")
    swatch = add(row, "svg", viewBox="0 0 10 10", class_="swatch")
    add(swatch, "circle", cx=5, cy=5, r=5, fill=color)
    add(row, "span", text)
    add(row, "span", f"{count:,}", class_="count")
