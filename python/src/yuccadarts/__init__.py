"""Asks `router`, a proved journey planner for public transport, over one process that lives.

    with Router("examples/f1", "20260302", program="./router") as router:
        for choice in router.ask("A", "D", "08:00:00"):
            print(clock(choice.arrival), choice.rides, *(leg.destination for leg in choice.legs))

Times are seconds since noon minus twelve hours, which is midnight but on the days when clocks
change; where one is asked for it may also be a text as `08:00:00`.
"""
from .answers import (
    Amended,
    Answer,
    Cell,
    Choice,
    Departure,
    Edition,
    Leg,
    Offer,
    Reached,
    Ride,
    Spread,
    TravelTimes,
    Value,
    Walk,
)
from .faults import (
    Closed,
    Elsewhere,
    FeedRefused,
    LineRefused,
    NoProgram,
    NotPublished,
    ProcessConfused,
    ProcessEnded,
    Refused,
    RouterError,
    UnknownStop,
    UpdatesRefused,
)
from .questions import Ask, Latest, Profile, Question, Reach, Times
from .router import Publication, Router
from .times import Time, clock, seconds
from .updates import Cancellation, Delay, SkippedEvent, Update

__all__ = [
    "Amended",
    "Answer",
    "Ask",
    "Cancellation",
    "Cell",
    "Choice",
    "Closed",
    "Delay",
    "Departure",
    "Edition",
    "Elsewhere",
    "FeedRefused",
    "Latest",
    "Leg",
    "LineRefused",
    "NoProgram",
    "NotPublished",
    "Offer",
    "ProcessConfused",
    "ProcessEnded",
    "Profile",
    "Publication",
    "Question",
    "Reach",
    "Reached",
    "Refused",
    "Ride",
    "Router",
    "RouterError",
    "SkippedEvent",
    "Spread",
    "Time",
    "Times",
    "TravelTimes",
    "UnknownStop",
    "Update",
    "UpdatesRefused",
    "Value",
    "Walk",
    "clock",
    "seconds",
]
