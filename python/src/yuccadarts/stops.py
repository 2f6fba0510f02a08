"""The stops of a feed, as far as a map needs them: stops.txt by Python's own csv."""
import csv
import math
import os
from dataclasses import dataclass

STATION = "1"
PLATFORMS = ("", "0")


@dataclass(frozen=True, slots=True)
class Stop:
    """A row of stops.txt: a platform, or a station."""

    id: str
    name: str
    latitude: float | None
    """In degrees; None where the row has no coordinates, or none of this earth."""
    longitude: float | None
    is_station: bool
    parent: str
    """The id of its station, or nothing."""

    @property
    def has_place(self) -> bool:
        return self.latitude is not None and self.longitude is not None


def read_stops(feed: str | os.PathLike[str]) -> dict[str, Stop]:
    """The platforms and stations of a feed by their ids, in the order of the file."""
    path = os.path.join(feed, "stops.txt")
    with open(path, encoding="utf-8-sig", newline="") as file:
        rows = ([field.strip(" \t") for field in row] for row in csv.reader(file))
        names: list[str] = next(rows, [])
        # of two columns of one name the first counts
        stops = (stop_of(dict(reversed([*zip(names, row)]))) for row in rows if any(row))
        return {stop.id: stop for stop in stops if stop}


def stop_of(row: dict[str, str]) -> Stop | None:
    kind = row.get("location_type", "")
    if kind != STATION and kind not in PLATFORMS:
        return None
    latitude = degrees(row.get("stop_lat", ""), 90)
    longitude = degrees(row.get("stop_lon", ""), 180)
    if latitude is None or longitude is None:
        latitude = longitude = None
    name = row.get("stop_name") or row["stop_id"]
    parent = row.get("parent_station", "")
    return Stop(row["stop_id"], name, latitude, longitude, kind == STATION, parent)


def degrees(text: str, most: float) -> float | None:
    try:
        found = float(text)
    except ValueError:
        return None
    return found if math.isfinite(found) and abs(found) <= most else None


def name_of(stops: dict[str, Stop], stop: str) -> str:
    """The name of a stop, or its id where the feed has no such stop."""
    return stops[stop].name if stop in stops else stop
