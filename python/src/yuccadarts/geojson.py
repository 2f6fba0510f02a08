"""An isochrone as GeoJSON (RFC 7946): a point for each stop."""
import json
from typing import Any

from .isochrone import Isochrone, Place
from .times import clock


def geojson(found: Isochrone) -> str:
    """A collection of points, each with its stop, the earliest arrival, and all best values; null
    where nothing leads. Times are texts, and seconds since noon minus twelve hours.
    """
    collection = {
        "type": "FeatureCollection",
        "origin": found.origin,
        "departure": clock(found.departure),
        "departure_seconds": found.departure,
        "stops_without_coordinates": found.left_out,
        "features": [feature(found, place) for place in found.places],
    }
    return json.dumps(collection) + "\n"


def feature(found: Isochrone, place: Place) -> dict[str, Any]:
    earliest = place.earliest
    values = [
        {"arrive": clock(it.arrival), "arrive_seconds": it.arrival, "rides": it.rides}
        for it in place.values
    ]
    return {
        "type": "Feature",
        "id": place.stop.id,
        "geometry": {
            "type": "Point",
            "coordinates": [place.stop.longitude, place.stop.latitude],
        },
        "properties": {
            "stop": place.stop.id,
            "name": place.stop.name,
            "arrive": clock(earliest.arrival) if earliest else None,
            "arrive_seconds": earliest.arrival if earliest else None,
            "travel_seconds": found.travel_time(place),
            "values": values,
        },
    }
