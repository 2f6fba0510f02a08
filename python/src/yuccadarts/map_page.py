"""An isochrone as a page that stands alone: nothing is loaded from anywhere."""
from importlib import resources
from typing import Any
from xml.etree.ElementTree import Element

from .answers import Choice, Leg, Ride
from .drawing import Projection, add_legend, add_map, add_route, add_stops
from .elements import add, add_data, digest, page, written
from .isochrone import Isochrone, bands_of
from .stops import Stop, name_of
from .times import clock

SCRIPT = resources.files(__package__).joinpath("pages", "map.js").read_text(encoding="utf-8")
POLICY = f"default-src 'none'; style-src 'unsafe-inline'; script-src {digest(SCRIPT)}"


def map_page(found: Isochrone, stops: dict[str, Stop]) -> str:
    """The page: the map, its legend, and the journeys to the stop on which one clicks."""
    title = f"From {name_of(stops, found.origin)} at {clock(found.departure)}"
    projection = Projection(place.stop for place in found.places)
    bands = bands_of(found)
    root, body = page(title, POLICY)
    add(body, "h1", title)
    main = add(body, "main")
    drawing = add_map(add(main, "figure"), projection, title)
    add_stops(drawing, projection, found, bands)
    add_route(drawing, projection)
    side = add(main, "aside")
    add_legend(side, found, bands)
    if found.left_out:
        add(side, "p", f"stops without coordinates, which are left out: {found.left_out:,}")
    add_finder(side, found)
    add(side, "section", id="journeys", aria_live="polite")
    add_data(body, "said", data_of(found, stops, projection))
    add(body, "script", SCRIPT)
    return written(root)


def add_finder(side: Element, found: Isochrone) -> None:
    """Adds a field that finds a stop by its name."""
    label = add(side, "label", "Journey to ")
    add(label, "input", id="find", list="names", placeholder="click on a stop, or name one")
    names = add(side, "datalist", id="names")
    for place in found.places:
        add(names, "option", value=f"{place.stop.name} [{place.stop.id}]")


def data_of(found: Isochrone, stops: dict[str, Stop], projection: Projection) -> dict[str, Any]:
    """What the script needs. The places stand first among the stops; legs name stops by number: a
    ride is [trip, from, departure, to, arrival], a walk [from, to, seconds].
    """
    numbers = {place.stop.id: number for number, place in enumerate(found.places)}

    def number_of(stop: str) -> int:
        return numbers.setdefault(stop, len(numbers))

    def leg_of(leg: Leg) -> list[Any]:
        if isinstance(leg, Ride):
            ends = number_of(leg.origin), leg.departure, number_of(leg.destination), leg.arrival
            return [leg.trip, *ends]
        return [number_of(leg.origin), number_of(leg.destination), leg.seconds]

    def journey_of(choice: Choice) -> list[Any]:
        return [choice.arrival, choice.rides, [leg_of(leg) for leg in choice.legs]]

    journeys = [[journey_of(choice) for choice in place.journeys] for place in found.places]
    shown = [
        [stop, name_of(stops, stop), projection.at(stops[stop]) if stop in stops else None]
        for stop in numbers
    ]
    return {"departure": found.departure, "stops": shown, "journeys": journeys}
