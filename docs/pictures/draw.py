#!/usr/bin/env python3
"""Draws the pictures of the documents, as SVG files beside this script: draw.py [--levels]

The diagrams come from the feeds in examples/, by a plain reading of the definitions that docs/DEFINITIONS.md describes:
lines, candidate transfers, U-turns, kept transfers, and a search round by round. The map of the crates comes from
crates.txt; a crate that stands in no box, or in two, is an error. With --levels it draws nothing, and prints the crates
level by level: each stands on at least one of the level before.
"""
import csv
import os
import sys
from dataclasses import dataclass
from xml.sax.saxutils import escape

HERE = os.path.dirname(os.path.realpath(__file__))
TOP = os.path.realpath(os.path.join(HERE, "..", ".."))

BLUE, ORANGE, GREEN, RED, GREY, INK = "#1f6fb4", "#d9730d", "#2b8a3e", "#c92a2a", "#9aa0a6", "#202124"
ROUND_COLORS = [BLUE, ORANGE, GREEN]


# The timetable, as far as the example feeds need it.

@dataclass(frozen=True)
class Event:
    stop: str
    arr: int
    dep: int


class Timetable:
    def __init__(self, folder, station_secs=None):
        rows = {name: read_rows(folder, name) for name in ["stops", "trips", "stop_times", "transfers"]}
        self.stops = [row["stop_id"] for row in rows["stops"] if row.get("location_type", "") != "1"]
        self.parent = {row["stop_id"]: row.get("parent_station", "") for row in rows["stops"]}
        self.trips = [row["trip_id"] for row in rows["trips"]]
        self.events = {trip: events_of(rows["stop_times"], trip) for trip in self.trips}
        self.walks = {(row["from_stop_id"], row["to_stop_id"]): int(row["min_transfer_time"] or 0)
                      for row in rows["transfers"] if row["from_stop_id"] != row["to_stop_id"]}
        self.station_secs = station_secs

    def change(self, p, q):
        """The seconds of a change from p to q, or None: the change time is 0 in these feeds."""
        if p == q:
            return 0
        if self.station_secs is not None and self.parent[p] and self.parent[p] == self.parent[q]:
            return self.station_secs
        return self.walks.get((p, q))


def read_rows(folder, name):
    path = os.path.join(TOP, "examples", folder, name + ".txt")
    if not os.path.exists(path):
        return []
    with open(path, encoding="utf-8-sig", newline="") as file:
        return list(csv.DictReader(file))


def seconds(text):
    hours, minutes, secs = text.split(":")
    return int(hours) * 3600 + int(minutes) * 60 + int(secs)


def clock(time):
    return f"{time // 3600:02}:{time // 60 % 60:02}"


def events_of(rows, trip):
    mine = sorted((row for row in rows if row["trip_id"] == trip), key=lambda row: int(row["stop_sequence"]))
    return [Event(row["stop_id"], seconds(row["arrival_time"] or row["departure_time"]),
                  seconds(row["departure_time"] or row["arrival_time"])) for row in mine]


# Lines and transfers.

def may_follow(first, second):
    """Whether two trips have the same stops, and the second is nowhere earlier."""
    return len(first) == len(second) and all(
        e.stop == f.stop and e.arr <= f.arr and e.dep <= f.dep for e, f in zip(first, second))


def lines_of(table):
    order = sorted(table.trips, key=lambda trip: [(e.arr, e.dep) for e in table.events[trip]])
    lines = []
    for trip in order:
        home = next((line for line in lines if may_follow(table.events[line[-1]], table.events[trip])), None)
        if home:
            home.append(trip)
        else:
            lines.append([trip])
    return lines


def earliest_trip(table, line, index, time):
    return next((trip for trip in line if table.events[trip][index].dep >= time), None)


def candidates(table, lines, trip, at):
    """The candidate transfers of trip@at, as (trip, at, to_trip, to_at)."""
    if at == 0:
        return []
    event, found = table.events[trip][at], []
    for stop in table.stops:
        secs = table.change(event.stop, stop)
        for line in lines if secs is not None else []:
            for index, call in enumerate(table.events[line[0]][:-1]):
                other = call.stop == stop and earliest_trip(table, line, index, event.arr + secs)
                if other and not (trip in line and line.index(trip) <= line.index(other) and at <= index):
                    found.append((trip, at, other, index))
    return found


def is_u_turn(table, transfer):
    trip, at, other, index = transfer
    before, after = table.events[trip][at - 1], table.events[other][index + 1]
    return before.stop == after.stop and before.arr <= after.dep


def sorted_transfers(table, lines):
    """All transfers, as lists of kept ones, of U-turns, and of those that the reduction drops."""
    kept, turns, dropped = [], [], []
    for trip in table.trips:
        arrivals, changes = {}, {}
        for at in range(len(table.events[trip]) - 1, 0, -1):
            improves(table, arrivals, changes, [table.events[trip][at]])
            for transfer in candidates(table, lines, trip, at):
                if is_u_turn(table, transfer):
                    turns.append(transfer)
                elif improves(table, arrivals, changes, table.events[transfer[2]][transfer[3] + 1:]):
                    kept.append(transfer)
                else:
                    dropped.append(transfer)
    return kept, turns, dropped


def improves(table, arrivals, changes, events):
    """Whether these events bring one sooner to some stop than all before; the bests are lowered."""
    better = False
    for stop in table.stops:
        for best, secs_to in (arrivals, lambda p, q: 0 if p == q else table.change(p, q)), (changes, table.change):
            times = [e.arr + secs_to(e.stop, stop) for e in events if secs_to(e.stop, stop) is not None]
            if times and min(times) < best.get(stop, float("inf")):
                best[stop], better = min(times), True
    return better


# The search.

@dataclass
class Round:
    segments: list  # (trip, first, last)
    hits: list      # (trip, index, arrival)
    hops: list      # the transfers that enter a segment of the next round
    spared: list    # those that don't, since the trip is marked already


def search(table, lines, kept, origin, target, time):
    """The rounds of a search between two stops without walks at the ends."""
    marks = {trip: len(table.events[trip]) - 1 for trip in table.trips}
    line_of = {trip: line for line in lines for trip in line}
    best, rounds, entered = float("inf"), [], []

    def enter(trip, index):
        if index >= marks[trip]:
            return False
        entered.append((trip, index, marks[trip]))
        line = line_of[trip]
        for later in line[line.index(trip):]:
            marks[later] = min(marks[later], index)
        return True

    for line in lines:
        for index, call in enumerate(table.events[line[0]][:-1]):
            trip = call.stop == origin and earliest_trip(table, line, index, time)
            if trip:
                enter(trip, index)
    while entered:
        this = Round(entered, [], [], [])
        entered = []
        for trip, first, last in this.segments:
            for index in range(first + 1, last + 1):
                event = table.events[trip][index]
                if event.stop == target and event.arr < best:
                    best = event.arr
                    this.hits.append((trip, index, event.arr))
        for trip, first, last in this.segments:
            for transfer in (t for i in range(first + 1, last + 1) for t in kept if t[:2] == (trip, i)):
                if table.events[trip][transfer[1]].arr < best:
                    (this.hops if enter(transfer[2], transfer[3]) else this.spared).append(transfer)
        rounds.append(this)
    return rounds


# Drawing.

class Svg:
    def __init__(self, width, height):
        self.size, self.parts = (width, height), []

    def line(self, points, color, width=2.0, dash="", arrow=False):
        path = "M" + " L".join(f"{x:.1f} {y:.1f}" for x, y in points)
        self.path(path, color, width, dash, arrow)

    def arc(self, start, end, lift, color, width=2.0, dash=""):
        (x, y), (u, v) = start, end
        bend = f"Q{(x + u) / 2:.1f} {min(y, v) - lift:.1f} {u:.1f} {v:.1f}"
        self.path(f"M{x:.1f} {y:.1f} {bend}", color, width, dash, True)

    def path(self, path, color, width, dash, arrow):
        extra = f' stroke-dasharray="{dash}"' if dash else ""
        extra += f' marker-end="url(#{color[1:]})"' if arrow else ""
        self.parts.append(f'<path d="{path}" fill="none" stroke="{color}" stroke-width="{width}"{extra}/>')

    def dot(self, point, color, radius=3.5):
        self.parts.append(f'<circle cx="{point[0]:.1f}" cy="{point[1]:.1f}" r="{radius}" fill="{color}"/>')

    def box(self, x, y, width, height, color, fill="#ffffff"):
        self.parts.append(f'<rect x="{x}" y="{y}" width="{width}" height="{height}" rx="6" fill="{fill}" '
                          f'stroke="{color}"/>')

    def text(self, point, words, color=INK, size=13, anchor="start", bold=False):
        weight = ' font-weight="bold"' if bold else ""
        self.parts.append(f'<text x="{point[0]:.1f}" y="{point[1]:.1f}" fill="{color}" font-size="{size}" '
                          f'text-anchor="{anchor}" stroke="#ffffff" stroke-width="3" paint-order="stroke"{weight}>'
                          f'{escape(words)}</text>')

    def write(self, name):
        colors = [BLUE, ORANGE, GREEN, RED, GREY, INK]
        heads = "".join(f'<marker id="{c[1:]}" viewBox="0 0 10 10" refX="9" refY="5" markerWidth="7" markerHeight="7" '
                        f'markerUnits="userSpaceOnUse" orient="auto"><path d="M0 0 L10 5 L0 10 z" fill="{c}"/></marker>'
                        for c in colors)
        width, height = self.size
        lines = [f'<svg xmlns="http://www.w3.org/2000/svg" width="{width}" height="{height}" '
                 f'viewBox="0 0 {width} {height}" font-family="sans-serif">',
                 f'<defs>{heads}</defs>', f'<rect width="{width}" height="{height}" fill="#ffffff"/>',
                 *self.parts, "</svg>", ""]
        with open(os.path.join(HERE, name), "w", encoding="utf-8") as file:
            file.write("\n".join(lines))


class Diagram:
    """Stops from top to bottom, time from left to right, a trip as a line from call to call."""

    def __init__(self, table, first, last, minute, spacing=74, note=20):
        self.table, self.first = table, first
        self.minute, self.left, self.top, self.spacing = minute, 84, 52, spacing
        width = self.left + (last - first) // 60 * minute + 60
        self.svg = Svg(width, self.top + spacing * (len(table.stops) - 1) + 28 + note)
        self.bottom = self.top + spacing * (len(table.stops) - 1)
        for stop in table.stops:
            y = self.y(stop)
            self.svg.line([(self.left - 6, y), (width - 20, y)], "#dadce0", 1)
            self.svg.text((self.left - 12, y + 4), stop, anchor="end")
        for time in range(first, last + 1, 600):
            self.svg.line([(self.x(time), self.top - 14), (self.x(time), self.bottom)], "#eceff1", 1)
            self.svg.text((self.x(time), self.top - 22), clock(time), GREY, 12, "middle")

    def x(self, time):
        return self.left + (time - self.first) / 60 * self.minute

    def y(self, stop):
        return self.top + self.spacing * self.table.stops.index(stop)

    def arrival(self, trip, at):
        event = self.table.events[trip][at]
        return self.x(event.arr), self.y(event.stop)

    def departure(self, trip, at):
        event = self.table.events[trip][at]
        return self.x(event.dep), self.y(event.stop)

    def ride(self, trip, first, last, color, width=2.0, name=True):
        points = [p for i in range(first, last + 1) for p in (self.arrival(trip, i), self.departure(trip, i))]
        self.svg.line(points, color, width)
        for i in range(first, last + 1):
            self.svg.dot(self.departure(trip, i), color)
        if name:
            (x, y), (u, v) = self.departure(trip, first), self.arrival(trip, first + 1)
            self.svg.text((x + (u - x) * 0.3 + 6, y + (v - y) * 0.3 - 3), trip, color, 13, bold=True)

    def transfer(self, transfer, color, dash="", lift=None):
        trip, at, other, index = transfer
        start, end = self.arrival(trip, at), self.departure(other, index)
        if lift is None:
            lift = 14 + (end[0] - start[0]) * 0.16
        self.svg.arc(start, end, lift if start[1] == end[1] else 0, color, 1.8, dash)

    def legend(self, entries):
        x, y = self.left, self.bottom + 42
        for words, color, dash in entries:
            self.svg.line([(x, y - 4), (x + 26, y - 4)], color, 2.4, dash)
            self.svg.text((x + 32, y), words, size=12)
            x += 48 + 6.6 * len(words)


def draw_transfers(table, name, first, last, minute):
    """The trips of a feed with all candidate transfers: kept ones, U-turns, and those that the reduction drops."""
    lines = lines_of(table)
    kept, turns, dropped = sorted_transfers(table, lines)
    diagram = Diagram(table, first, last, minute)
    entries = []
    for trip in table.trips:
        diagram.ride(trip, 0, len(table.events[trip]) - 1, INK, 1.6)
    kinds = [(kept, GREEN, "", "kept"), (turns, RED, "5 3", "U-turn"),
             (dropped, GREY, "2 3", "dropped by the reduction")]
    for transfers, color, dash, words in kinds:
        for transfer in transfers:
            diagram.transfer(transfer, color, dash)
        if transfers:
            entries.append((f"{words} ({len(transfers)})", color, dash))
    diagram.legend([("trip", INK, ""), *entries])
    diagram.svg.write(name)


def draw_search(table, name, query, first, last, minute):
    """The segments of a search, a color for each round, with its hits and the transfers that it follows."""
    lines = lines_of(table)
    rounds = search(table, lines, sorted_transfers(table, lines)[0], *query)
    diagram = Diagram(table, first, last, minute)
    for trip in table.trips:
        diagram.ride(trip, 0, len(table.events[trip]) - 1, "#cfd4d9", 1.6)
    for color, this in zip(ROUND_COLORS, rounds):
        for segment in this.segments:
            diagram.ride(*segment, color, 3.0)
        for transfer in this.hops:
            diagram.transfer(transfer, color)
        for transfer in this.spared:
            diagram.transfer(transfer, GREY, "2 3")
    for number, (color, this) in enumerate(zip(ROUND_COLORS, rounds), 1):
        for trip, index, arrival in this.hits:
            x, y = diagram.arrival(trip, index)
            diagram.svg.dot((x, y), color, 6)
            side, shift = ("end", -8) if number == len(rounds) else ("start", 8)
            diagram.svg.text((x + shift, y + 19), f"{clock(arrival)}, rides {number}", color, 12, side, True)
    entries = [(f"round {number}", color, "") for number, color in zip(range(1, len(rounds) + 1), ROUND_COLORS)]
    diagram.legend([*entries, ("enters nothing", GREY, "2 3")])
    diagram.svg.write(name)


# The map of the crates.

BOXES = {
    "read": ["command_line", "tb_io", "text_lines", "gtfs_rows"],
    "day": ["service_day", "footpaths", "foot_close", "service_trips", "trip_table", "feed_maker"],
    "lines and transfers": ["line_split", "transfer_make", "uturn_cut", "transfer_reduce", "transfer_pack",
                            "reduce_workers"],
    "edition": ["edition_build", "edition_store", "history", "late_edit"],
    "search": ["segment_queue", "earliest_query", "reach_all", "arrive_by", "query_gate", "plain_rounds"],
    "journeys": ["journey_unfold", "journey_read"],
    "text": ["answer_text", "answer_json"],
}
BELOW = ("definitions and laws, which all of these cite", ["tb_base", "tb_laws"])
ABOVE = ("the program", ["live_turns", "lane_serve", "router_cli", "router"])
TESTS = ("tests and measurements", ["cross_tests", "trials", "comparisons"])
WHAT_FLOWS = ["rows", "timetable", "kept transfers", "network", "hits", "journeys"]


def crates():
    """The crates, each with its direct dependencies."""
    with open(os.path.join(TOP, "crates.txt"), encoding="utf-8") as file:
        lines = [line.split("#")[0].partition(":") for line in file]
    return {head.split()[0]: names.split() for head, colon, names in lines if colon}


def print_levels():
    below, levels = crates(), {}

    def level(crate):
        return levels.setdefault(crate, 1 + max((level(name) for name in below[crate] if name in below), default=0))

    deepest = max(level(crate) for crate in below)
    for number in range(1, deepest + 1):
        print(number, *(crate for crate in below if levels[crate] == number))


def draw_house(name):
    """The stages from reading to text, with the crates in each."""
    placed = [crate for box in [*BOXES.values(), BELOW[1], ABOVE[1], TESTS[1]] for crate in box]
    wrong = sorted(set(crates()) ^ set(placed)) + sorted({crate for crate in placed if placed.count(crate) > 1})
    if wrong:
        sys.exit(f"draw.py: crates that stand in no box, in two, or not in crates.txt: {' '.join(wrong)}")
    width, gap, top, height = 152, 60, 78, 178
    svg = Svg(30 + len(BOXES) * (width + gap) - gap + 30, top + height + 84)
    inner = svg.size[0] - 60
    tests = 60 + 8 * len(TESTS[0] + " · ".join(TESTS[1]))
    bar(svg, 16, inner - tests - 14, 30, ABOVE, "#fff4e6")
    bar(svg, 16, tests, 30 + inner - tests, TESTS, "#f1f3f5")
    for number, (title, names) in enumerate(BOXES.items()):
        x = 30 + number * (width + gap)
        svg.box(x, top, width, height, BLUE, "#eef5fb")
        svg.text((x + width / 2, top + 22), title, BLUE, 13, "middle", True)
        for row, crate in enumerate(names):
            svg.text((x + width / 2, top + 46 + row * 19), crate, size=13, anchor="middle")
        if number < len(WHAT_FLOWS):
            y = top + height / 2
            svg.line([(x + width + 4, y), (x + width + gap - 4, y)], INK, 1.8, arrow=True)
            for row, word in enumerate(WHAT_FLOWS[number].split()):
                svg.text((x + width + gap / 2, y + 20 + row * 14), word, size=11, anchor="middle")
    bar(svg, top + height + 24, inner, 30, BELOW, "#ebfbee")
    svg.write(name)


def bar(svg, y, width, x, content, fill):
    title, names = content
    svg.box(x, y, width, 38, GREY, fill)
    svg.parts.append(f'<text x="{x + 14}" y="{y + 24}" fill="{INK}" font-size="13"><tspan font-weight="bold">{title}:'
                     f'</tspan><tspan dx="10">{" · ".join(names)}</tspan></text>')


def main():
    if "--levels" in sys.argv[1:]:
        print_levels()
        return
    eight = 8 * 3600
    draw_transfers(Timetable("f1"), "f1.svg", eight, eight + 3600, 12)
    draw_transfers(Timetable("town", station_secs=120), "town.svg", eight - 3600, eight - 1800, 22)
    valley = Timetable("valley")
    draw_transfers(valley, "valley.svg", eight, eight + 4800, 12)
    draw_search(valley, "search.svg", ("Mill", "Harbour", eight - 300), eight, eight + 4800, 12)
    draw_house("house.svg")


if __name__ == "__main__":
    main()
