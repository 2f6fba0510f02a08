"""The page of an information desk: journeys between two stops by their names, and a map of them; or
where one can get to from one stop.
"""
from collections import Counter
from collections.abc import Iterator, Sequence
from http import HTTPStatus
from urllib.parse import urlencode
from xml.etree.ElementTree import Element

from .answers import Choice, Leg, Ride
from .drawing import (
    PLAIN,
    Projection,
    add_legend,
    add_map,
    add_route,
    add_stop,
    add_stops,
    radius_of,
)
from .elements import add, page, written
from .faults import LineRefused, RouterError, UnknownStop
from .isochrone import bands_of, isochrone
from .router import Router
from .stops import Stop, name_of
from .times import clock, seconds

POLICY = "default-src 'none'; style-src 'unsafe-inline'; form-action 'self'"
DEPARTURE = "08:00:00"
FIELDS = {"from": "From", "to": "To, or nothing for a map of arrivals", "time": "At"}
"""The fields of the form, and their labels."""


class Desk:
    """Makes pages of a router's answers. Places go by their names, with the id behind a name that
    several have, or that is the id of another stop.
    """

    def __init__(self, router: Router, stops: dict[str, Stop]):
        self._router = router
        self._stops = stops
        self._projection = Projection(stops.values())
        # a station stands for its platforms
        places = [stop for stop in stops.values() if stop.parent not in stops]
        times = Counter(stop.name for stop in places)
        self._labels = {
            stop.id: stop.name
            if times[stop.name] == 1 and stops.get(stop.name, stop) is stop
            else f"{stop.name} [{stop.id}]"
            for stop in places
        }
        self._ids = {label: stop for stop, label in self._labels.items()}

    def page(self, asked: dict[str, str]) -> tuple[HTTPStatus, str]:
        """The page for what stands in the fields, and its status."""
        root, body = page("Journeys", POLICY)
        main = add(body, "main")
        side = add(main, "aside")
        figure = add(main, "figure")
        add(side, "h1", "Journeys")
        self._add_form(side, asked)
        status = HTTPStatus.OK
        try:
            self._add_answer(side, figure, asked)
        except (RouterError, ValueError) as error:
            is_asked_wrongly = isinstance(error, (UnknownStop, LineRefused, ValueError))
            status = HTTPStatus.BAD_REQUEST if is_asked_wrongly else HTTPStatus.SERVICE_UNAVAILABLE
            add(side, "p", str(error), class_="fault")
            self._add_plain_map(figure, "the stops")
        return status, written(root)

    def _add_form(self, side: Element, asked: dict[str, str]) -> None:
        form = add(side, "form", action="/")
        for name, text in FIELDS.items():
            value = asked.get(name) or (DEPARTURE if name == "time" else "")
            names = None if name == "time" else "places"
            field = add(form, "label", text)
            add(field, "input", name=name, value=value, list=names, autocomplete="off")
        add(form, "button", "Show")
        places = add(form, "datalist", id="places")
        for label in self._ids:
            add(places, "option", value=label)

    def _add_answer(self, side: Element, figure: Element, asked: dict[str, str]) -> None:
        departure = seconds(asked.get("time") or DEPARTURE)
        if not asked.get("from"):
            self._add_plain_map(figure, "the stops")
            return
        origin = self._id_of(asked["from"])
        if asked.get("to"):
            self._add_journeys(side, figure, origin, self._id_of(asked["to"]), departure)
        else:
            self._add_isochrone(side, figure, origin, departure)

    def _add_journeys(
        self, side: Element, figure: Element, origin: str, target: str, departure: int
    ) -> None:
        answer = self._router.ask(origin, target, departure)
        names = name_of(self._stops, origin), name_of(self._stops, target)
        add(side, "h2", f"{names[0]} to {names[1]}")
        if not answer.values:
            add(side, "p", "no journey")
        for choice in answer:
            self._add_choice(side, choice, is_open=choice is answer.values[-1])
        add(side, "p", f"by edition {answer.edition}", class_="note")
        drawing = self._add_plain_map(figure, "the journey that arrives first")
        if answer.values:
            add_route(drawing, self._projection, self._stops_of(answer.values[-1].legs))

    def _add_choice(self, side: Element, choice: Choice, is_open: bool) -> None:
        details = add(side, "details", open="" if is_open else None)
        rides = f"{choice.rides} {'ride' if choice.rides == 1 else 'rides'}"
        add(details, "summary", f"{clock(choice.arrival)}, {rides}")
        legs = add(details, "ol")
        for leg in choice.legs:
            ends = name_of(self._stops, leg.origin), name_of(self._stops, leg.destination)
            if isinstance(leg, Ride):
                times = clock(leg.departure), clock(leg.arrival)
                item = add(legs, "li", f"{times[0]} {ends[0]} – {times[1]} {ends[1]}")
                add(item, "span", f" on {leg.trip}", class_="note")
            else:
                add(legs, "li", f"walk {leg.seconds} s from {ends[0]} to {ends[1]}")
        if not choice.legs:
            add(legs, "li", "one is there")

    def _add_isochrone(self, side: Element, figure: Element, origin: str, departure: int) -> None:
        found = isochrone(self._router, self._stops, origin, departure)
        bands = bands_of(found)

        def link(stop: Stop) -> str:
            ends = {"from": self._label_of(origin), "to": self._label_of(stop.id)}
            return f"/?{urlencode({**ends, 'time': clock(departure)})}"

        add(side, "h2", f"From {name_of(self._stops, origin)} at {clock(departure)}")
        add_legend(side, found, bands)
        add(side, "p", f"by edition {found.edition}; a click on a stop asks for its journeys")
        drawing = add_map(figure, self._projection, "the stops by when one is there")
        add_stops(drawing, self._projection, found, bands, link)

    def _add_plain_map(self, figure: Element, title: str) -> Element:
        drawing = add_map(figure, self._projection, title)
        platforms = [stop for stop in self._stops.values() if not stop.is_station]
        radius = radius_of(platforms)
        for stop in platforms:
            add_stop(drawing, self._projection, stop, radius, PLAIN, stop.name)
        return drawing

    def _stops_of(self, legs: Sequence[Leg]) -> Iterator[Stop]:
        for leg in legs:
            for end in (leg.origin, leg.destination):
                if end in self._stops:
                    yield self._stops[end]

    def _id_of(self, label: str) -> str:
        """The stop that a label names; an id names one too."""
        return self._ids.get(label, label)

    def _label_of(self, stop: str) -> str:
        return self._labels.get(stop, stop)
