"""Makes the pictures of the pages anew, docs/pictures/isochrone.png and board.png, by the proved
program over a made network, in chromium: python3 -m tests.pictures
"""
import shutil
import subprocess
import tempfile
import threading
from pathlib import Path

from . import TOP
from .browser import Tab, browser
from .proved import DAY, PROGRAM, add_coordinates, make_network
from yuccadarts import Router
from yuccadarts.board import Board
from yuccadarts.desk import Desk
from yuccadarts.isochrone import isochrone
from yuccadarts.map_page import map_page
from yuccadarts.stops import Stop, read_stops

PICTURES = TOP / "docs" / "pictures"
PATTERNS = 240
ORIGIN, TARGET, PLATFORM = "S860", "S1405", "S1405:1"
DEPARTURE = 8 * 3_600
WIDTH, HEIGHT = 1_100, 840


def take_picture(tab: Tab, name: str) -> None:
    """Writes what is seen, with few colours where pngquant is there."""
    path = PICTURES / name
    tab.picture(path)
    if shutil.which("pngquant"):
        subprocess.run(["pngquant", "--force", "--ext", ".png", "48", path], check=True)
    print(f"{path}: {path.stat().st_size:,} bytes")


def picture_map(tab: Tab, router: Router, stops: dict[str, Stop], folder: str) -> None:
    """The map, with the journey to a stop on which one clicked."""
    found = isochrone(router, stops, ORIGIN, DEPARTURE, with_journeys=True)
    page = Path(folder, "map.html")
    page.write_text(map_page(found, stops), encoding="utf-8")
    print(f"{page.name}: {page.stat().st_size / 1e6:.1f} MB, {len(found.places)} stops")
    tab.open(page.as_uri())
    number = next(at for at, place in enumerate(found.places) if place.stop.id == PLATFORM)
    tab.click(f"[data-at='{number}']")
    tab.value("scrollTo(0, 0)")
    take_picture(tab, "isochrone.png")


def picture_board(tab: Tab, router: Router, stops: dict[str, Stop]) -> None:
    """The desk, with the answer to a form that was sent."""
    with Board(Desk(router, stops), 0) as board:
        threading.Thread(target=board.serve_forever, daemon=True).start()
        tab.open(board.url)
        tab.type("[name='from']", stops[ORIGIN].name)
        tab.type("[name='to']", stops[TARGET].name)
        tab.click_link("button")
        take_picture(tab, "board.png")
        board.shutdown()


def main() -> None:
    with tempfile.TemporaryDirectory() as folder, browser() as tab:
        make_network(folder, PATTERNS)
        add_coordinates(folder)
        stops = read_stops(folder)
        tab.resize(WIDTH, HEIGHT)
        with Router(folder, DAY, program=PROGRAM) as router:
            picture_map(tab, router, stops, folder)
            picture_board(tab, router, stops)


if __name__ == "__main__":
    main()
