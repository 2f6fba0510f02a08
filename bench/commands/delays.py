"""A file of updates for `late`, made of trip updates of GTFS Realtime.

Reads a feed message in protobuf's JSON form, which any protobuf library makes of the binary form,
and writes the file that `./router late FEED DATE FILE ..` reads: delays, cancelled trips and
skipped stops of trips of DATE and the day before, and of further days as `--days` has them.
Standard error says what the file can't say, such as added trips and other platforms, with counts.
The file has one delay for arrival and departure at a stop; if they differ it is the arrival's.
"""
import argparse
import json
import sys

from harness import BenchError
from realtime import Converter
from schedule import date_of


def a_date(text):
    try:
        return date_of(text)
    except ValueError:
        raise argparse.ArgumentTypeError(f"{text} is no day as YYYYMMDD") from None


DAYS = "the N of the program's --days (else 1)"


def add_arguments(parser):
    parser.add_argument("feed", metavar="FEED", help="the folder of the unpacked feed")
    parser.add_argument("date", metavar="DATE", type=a_date, help="the service day, as YYYYMMDD")
    parser.add_argument("--days", metavar="N", type=int, choices=(1, 2, 3), default=1, help=DAYS)
    parser.add_argument("updates", metavar="UPDATES", help="the message; - is standard input")


def message_of(path):
    try:
        if path == "-":
            return json.load(sys.stdin)
        with open(path, encoding="utf-8") as file:
            return json.load(file)
    except (OSError, ValueError) as error:
        raise BenchError(f"{path} can't be read as JSON: {error}") from None


def run(words):
    message = message_of(words.updates)
    try:
        converter = Converter(words.feed, words.date, message, words.days)
        lines = list(converter.lines())
    except (AttributeError, TypeError, ValueError) as error:
        raise BenchError(f"{words.updates} is no message of trip updates: {error}") from None
    for line in lines:
        print(line)
    print(f"trip updates: {len(converter.updates)}; lines: {len(lines)}", file=sys.stderr)
    for what, count in converter.unsaid.most_common():
        print(f"not in the file: {what}: {count}", file=sys.stderr)
    return 0
