"""Tests of the pages in a browser, where chromium is there: what one sees after clicks."""
import tempfile
import threading
import unittest
from pathlib import Path

from . import STAND_IN
from .browser import PROGRAM, browser
from .test_pages import HOSTILE, folder_of
from yuccadarts import Router
from yuccadarts.board import Board
from yuccadarts.desk import Desk
from yuccadarts.isochrone import isochrone
from yuccadarts.map_page import map_page
from yuccadarts.stops import read_stops


@unittest.skipUnless(PROGRAM, "chromium isn't there")
class Pages(unittest.TestCase):
    def setUp(self):
        self.feed = folder_of(self)
        self.stops = read_stops(self.feed)
        self.router = self.enterContext(Router(self.feed, "20260302", program=STAND_IN))
        self.tab = self.enterContext(browser())
        self.tab.resize(1000, 700)

    def test_a_map(self):
        found = isochrone(self.router, self.stops, "C", 28_800, with_journeys=True)
        page = Path(self.enterContext(tempfile.TemporaryDirectory()), "map.html")
        page.write_text(map_page(found, self.stops), encoding="utf-8")
        self.tab.open(page.as_uri())
        self.assertEqual("", self.tab.text("#journeys"))
        self.tab.click("[data-at='1']")
        self.assertIn("08:00:00 Central – 08:01:00 One on C>stop 1", self.tab.text("#journeys"))
        drawn = "document.querySelector('.route').getAttribute('points').split(' ').length"
        self.assertEqual(4, self.tab.value(drawn))
        self.tab.click("[data-at='2']")
        self.assertEqual("Two\nno journey", self.tab.text("#journeys").replace("\n\n", "\n"))
        self.tab.type("#find", "stop 0")
        self.tab.value("document.getElementById('find').blur()")
        self.assertIn(HOSTILE, self.tab.text("#journeys"))
        self.assertEqual(0, self.tab.value("document.images.length"))
        self.assertEqual([], self.tab.said)

    def test_a_board(self):
        board = self.enterContext(Board(Desk(self.router, self.stops), 0))
        threading.Thread(target=board.serve_forever, daemon=True).start()
        self.addCleanup(board.shutdown)
        self.tab.open(board.url)
        self.tab.type("[name='from']", "Central")
        self.tab.click_link("button")
        self.assertIn("From Central at 08:00:00", self.tab.text("aside"))
        self.tab.click_link("a [data-at='1']")
        self.assertIn("08:00:00 Central – 08:01:00 One on C>stop 1", self.tab.text("aside"))
        self.assertEqual(1, self.tab.value("document.querySelectorAll('polyline').length"))
        self.assertEqual(0, self.tab.value("document.images.length"))
        self.assertEqual([], [said for said in self.tab.said if "favicon" not in said])
