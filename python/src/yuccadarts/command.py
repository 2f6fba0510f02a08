"""The command `yuccadarts`: isochrones, and an information desk."""
import argparse
import io
import sys

from .board import Board
from .desk import Desk
from .faults import RouterError
from .geojson import geojson
from .isochrone import isochrone
from .map_page import map_page
from .router import Router
from .stops import read_stops
from .times import seconds

PORT = 8000


def parser() -> argparse.ArgumentParser:
    whole = argparse.ArgumentParser(prog="yuccadarts", description=__doc__.partition(": ")[2])
    commands = whole.add_subparsers(metavar="COMMAND", required=True)
    one = commands.add_parser("map", help="writes when one is where, as a page that stands alone")
    add_day(one)
    one.add_argument("origin", metavar="FROM", help="the id of a stop or a station")
    one.add_argument("departure", metavar="TIME", type=seconds, help="as 08:00:00")
    one.add_argument("--geojson", action="store_true", help="writes points in place of a page")
    one.add_argument("--output", metavar="FILE", help="else standard output")
    one.set_defaults(run=run_map)
    one = commands.add_parser("board", help="serves a page that asks for journeys, on 127.0.0.1")
    add_day(one)
    one.add_argument("--port", type=int, default=PORT, help=f"0 for any that is free (else {PORT})")
    one.set_defaults(run=run_board)
    return whole


def add_day(one: argparse.ArgumentParser) -> None:
    """Adds the arguments that a router needs."""
    one.add_argument("feed", metavar="FEED", help="the folder of the unpacked feed")
    one.add_argument("date", metavar="DATE", help="as 20260302")
    one.add_argument(
        "--change", metavar="SECS", type=int, default=120, help="within a stop (else 120)"
    )
    one.add_argument("--station", metavar="SECS", type=int, help="within a station (else no way)")
    one.add_argument("--no-close", dest="close", action="store_false", help="footpaths stay open")
    one.add_argument("--days", metavar="N", type=int, default=1, help="1 to 3 (else 1)")
    one.add_argument("--lanes", metavar="N", type=int, default=4, help="threads (else 4)")
    one.add_argument(
        "--program", metavar="PATH", help="the router (else the variable ROUTER, or on the path)"
    )


def router_of(words: argparse.Namespace) -> Router:
    return Router(
        words.feed,
        words.date,
        change=words.change,
        station=words.station,
        close=words.close,
        days=words.days,
        lanes=words.lanes,
        program=words.program,
    )


def run_map(words: argparse.Namespace) -> None:
    with router_of(words) as router:
        stops = read_stops(words.feed)
        with_journeys = not words.geojson
        found = isochrone(router, stops, words.origin, words.departure, with_journeys)
    if found.left_out:
        print(f"stops without coordinates, which are left out: {found.left_out}", file=sys.stderr)
    text = geojson(found) if words.geojson else map_page(found, stops)
    if words.output is None:
        # pages say that they are UTF-8, whatever the terminal is
        if isinstance(sys.stdout, io.TextIOWrapper):
            sys.stdout.reconfigure(encoding="utf-8")
        sys.stdout.write(text)
    else:
        with open(words.output, "w", encoding="utf-8") as file:
            file.write(text)


def run_board(words: argparse.Namespace) -> None:
    with router_of(words) as router:
        desk = Desk(router, read_stops(words.feed))
        with Board(desk, words.port) as board:
            print(f"{board.url} (Ctrl-C ends it)", flush=True)
            board.serve_forever()


def main() -> int:
    words = parser().parse_args()
    try:
        words.run(words)
    except (RouterError, OSError, ValueError) as error:
        print(f"yuccadarts: {error}", file=sys.stderr)
        return 1
    except KeyboardInterrupt:
        return 130
    return 0
