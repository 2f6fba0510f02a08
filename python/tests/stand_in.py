#!/usr/bin/env python3
"""Speaks as `router --json live DIR@DATE` does, but makes its answers up, so that a test can tell
from an answer which question it answers: one arrives as many minutes after the departure as the
edition's number, by a ride on the trip `ORIGIN>DESTINATION`, which began on the day before if the
origin is `before`, and a walk back.

It amends a day by a file that it reads: as many trips are touched as the file has lines, of which
the first with the word `unknown` is refused.

A day whose folder is named `broken` is refused, one named `unread` can't be read, one named `slow`
waits for a question from `go`, and of one named `mixed` it tells as if it were another. With some
origins it does what a process shouldn't: `pause`, `hang`, `die`, `cut`, `quiet`, `babble`, `skip`,
`odd` and `shout`.
`reach many` tells of 20,000 stops, `reach turn` of the turn's number, `reach words` of the words
with which it was started.
"""
import json
import os
import queue
import re
import sys
import threading
import time

PIECE = 65_536
WORD = re.compile(r'"((?:[^"]|"")*)"|([^\s"]+)')
FAULT = {
    "number": 12,
    "name": "UnknownTrip",
    "file": "stop_times.txt",
    "row": 5,
    "column": "trip_id",
}
PAUSES = {"pause": 0.5, "hang": 60}
OUTCOMES = {"broken": {"fault": FAULT}, "unread": {"message": "read fault"}}
FORMS = {
    "ask": (3,),
    "profile": (4,),
    "latest": (3,),
    "reach": (2,),
    "times": (4, 6),
    "publish": (1,),
    "late": (1,),
}


def words_of(line):
    return [quoted.replace('""', '"') or plain for quoted, plain in WORD.findall(line)]


def seconds(clock):
    hours, minutes, secs = map(int, clock.split(":"))
    return hours * 3600 + minutes * 60 + secs


def clock(secs):
    return f"{secs // 3600:02}:{secs // 60 % 60:02}:{secs % 60:02}"


def timed(name, secs):
    return {name: clock(secs), f"{name}_seconds": secs}


def values(edition, name, words):
    """The made up values of a question."""
    if name == "times":
        first, last, step = seconds(words[1]), seconds(words[2]), int(words[3])
        count = (last - first) // step + 1
        times = [60 * edition, *([int(words[5]) if words[5:] else None] * 6)]
        return [["stop", count, count, times], ["Z", 0, count, [None] * 7]]
    departure = seconds(words[-1] if name != "profile" else words[-2])
    arrival = departure + 60 * edition
    if name == "latest":
        departure, arrival = departure - 60 * edition, departure
    if name == "reach":
        count = 20_000 if words[0] == "many" else 3
        value = [clock(arrival), arrival, 1]
        return [*([f"stop {number}", [value]] for number in range(count)), ["Z", []]]
    ride = {"trip": f"{words[0]}>{words[1]}", "from": words[0], **timed("departure", departure)}
    ride |= {"to": words[1], **timed("arrival", arrival)}
    ride |= {"day": -1} if words[0] == "before" else {}
    legs = [ride, {"from": words[1], "to": words[0], "seconds": 7}]
    leave = {} if name == "ask" else timed("leave", departure)
    arrive = {} if name == "latest" else timed("arrive", arrival)
    return [{**leave, **arrive, "rides": 1, "legs": legs}]


def amended(path):
    """What becomes of a day that a file amends."""
    if os.path.basename(path) == "slow":
        time.sleep(0.3)
    try:
        with open(path, encoding="utf-8", newline="") as file:
            lines = file.read().split("\n")
    except OSError:
        return {"fault": {"number": 6, "name": "MissingFile"}}
    for number, line in enumerate(lines, 1):
        if "unknown" in words_of(line):
            return {"fault": {"number": 1, "name": "UnknownTrip", "line": number}}
    return {"touched": len(lines) - 1, "kept": len("".join(lines))}


class StandIn:
    def __init__(self):
        self.number = self.edition = self.turn = 0
        self.days, self.news = queue.Queue(), queue.Queue()
        self.going = threading.Event()

    def publish(self):
        """Publishes the days that are handed over, one after another."""
        published = 0
        while day := self.days.get():
            name = os.path.basename(day.rpartition("@")[0])
            if day.startswith("late:"):
                told = amended(day.removeprefix("late:"))
                published += "fault" not in told
                told = told if "fault" in told else {"edition": published, **told}
                self.news.put({"day": day, **told})
                continue
            if name == "slow":
                self.going.wait()
            if name in OUTCOMES:
                self.news.put({"day": day, **OUTCOMES[name]})
                continue
            published += 1
            day = f"other/{day}" if name == "mixed" else day
            self.news.put({"day": day, "edition": published, "trips": 5, "lines": 3, "kept": 1})

    def take_turn(self, lines):
        out = []
        self.turn += 1
        while not self.news.empty():
            told = self.news.get()
            self.edition = told.get("edition", self.edition)
            out.append(told)
        for line in lines:
            words = words_of(line)
            if words and not line.startswith("#"):
                self.number += 1
                reply = self.reply(*words)
                out.append({"request": self.number, **reply})
        return "".join(f"{json.dumps(said)}\n" for said in out).encode()

    def write(self, lines):
        out = memoryview(self.take_turn(lines))
        while out:
            out = out[os.write(1, out) :]

    def reply(self, name, *words):
        if len(words) not in FORMS.get(name, ()) or len(" ".join(words)) > 1_000:
            return {"fault": {"number": 1, "name": "BadLine"}}
        if name in ("publish", "late"):
            day = words[0] if name == "publish" else f"late:{words[0]}"
            self.days.put(day)
            return {"queued": day}
        if words[0] == "nowhere":
            return {"edition": self.edition, "unknown_stop": words[0]}
        self.misbehave(words[0])
        if words[0] == "odd":
            return {"edition": self.edition, "worth": []}
        if words[0] == "turn":
            return {"edition": self.edition, "values": [["turn", [["", self.turn, 0]]]]}
        if words[0] == "words":
            return {"edition": self.edition, "values": [[word, []] for word in sys.argv[1:]]}
        return {"edition": self.edition, "values": values(self.edition, name, words)}

    def misbehave(self, word):
        if word == "die":
            sys.stderr.write('{"status":6,"message":"out of memory"}\n')
            sys.stderr.flush()
            os._exit(6)
        if word in PAUSES:
            time.sleep(PAUSES[word])
        if word == "cut":
            os.write(1, b'{"request":')
            os._exit(5)
        if word == "go":
            self.going.set()
        if word == "quiet":
            os.close(1)
            time.sleep(60)
        if word == "babble":
            os.write(1, b"what?\n")
        if word == "shout":
            os.write(2, b"!" * 1_000_000)
        if word == "skip":
            self.number += 1

    def live(self, day):
        self.days.put(day)
        threading.Thread(target=self.publish, daemon=True).start()
        first = self.news.get()
        if "fault" in first:
            refusal = {"status": 3, "message": "feed refused", "fault": FAULT}
            print(json.dumps(refusal), file=sys.stderr)
            sys.exit(3)
        self.news.put(first)
        self.write([])
        begun = b""
        while piece := os.read(0, PIECE):
            *lines, begun = (begun + piece).split(b"\n")
            self.write([line.decode() for line in lines])


if __name__ == "__main__":
    StandIn().live(sys.argv[-1])
