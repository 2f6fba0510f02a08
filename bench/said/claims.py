"""What `verify` has to say of a claim, as docs/FORMATS.md says."""
import typing

from said import texts
from said.answers import seconds_of


class Leg(typing.NamedTuple):
    """A walk, whose trip is None, or a ride; times are those of its ends."""

    start: str
    end: str
    secs: int = 0
    departure: int = 0
    arrival: int = 0
    board: bool = True
    alight: bool = True
    is_walk: bool = False


def ride_of(timetable, words):
    """The ride that a line names, or None."""
    _, name, start, departure, end, arrival, *mark = words
    departure, arrival = seconds_of(departure), seconds_of(arrival)
    for trip in timetable.trips:
        if (trip.name, trip.day) != (name, texts.day_of(mark)):
            continue
        first = None
        for call in trip.calls:
            if first and (call.stop, call.arrival) == (end, arrival):
                return Leg(start, end, 0, departure, arrival, first.board, call.alight)
            if first is None and (call.stop, call.departure) == (start, departure):
                first = call
    return None


def claim_of(timetable, lines):
    """The claimed value and the legs of lines in words; or the first fault, as it is shown, in place
    of them.
    """
    value, legs = None, []
    for number, words in lines:
        if words == []:
            continue
        if words is None or not (texts.is_value if value is None else texts.is_leg)(words):
            return f"1 BadLine line {number}"
        if value is None:
            value = seconds_of(words[1]), int(words[3])
            continue
        stops = words[1:3] if words[0] == "walk" else (words[2], words[4])
        if any(stop not in timetable.parents for stop in stops):
            return f"2 UnknownStop line {number}"
        walk = Leg(*stops, int(words[3]), is_walk=True) if words[0] == "walk" else None
        leg = walk or ride_of(timetable, words)
        if leg is None:
            return f"3 NoSuchRide line {number}"
        legs.append(leg)
    return "1 BadLine line 0" if value is None else (value, legs)


def broken_rule(timetable, legs, at, origins, targets, time):
    """The first rule that a leg breaks, or None."""
    leg, before = legs[at], legs[at - 1] if at else None
    earlier = legs[at - 2] if at > 1 else None
    is_walk = leg.is_walk
    if is_walk:
        if before and before.is_walk:
            return "TwoWalks"
        if leg.start == leg.end or timetable.changes.get((leg.start, leg.end)) != leg.secs:
            return "NoWalk"
    elif not leg.board:
        return "NoBoarding"
    elif not leg.alight:
        return "NoAlighting"
    if not before and leg.start not in origins:
        return "WrongStart"
    is_first = not is_walk and all(it.is_walk for it in legs[:at])
    if is_first and leg.departure - (before.secs if before else 0) < time:
        return "TooEarly"
    if before and before.end != leg.start:
        return "Apart"
    if not is_walk and before and not is_first and is_late(timetable, leg, before, earlier):
        return "TooLate"
    if at == len(legs) - 1 and leg.end not in targets:
        return "WrongEnd"
    return None


def is_late(timetable, leg, before, earlier):
    """Whether a ride leaves before one can have changed to it."""
    if before.is_walk:
        return leg.departure < earlier.arrival + before.secs
    change = timetable.changes.get((leg.start, leg.start))
    return change is None or leg.departure < before.arrival + change


def value_of(legs, time):
    rides = [leg for leg in legs if not leg.is_walk]
    walk = legs[-1].secs if legs and legs[-1].is_walk else 0
    return (rides[-1].arrival if rides else time) + walk, len(rides)


def verdict(timetable, claim, origins, targets, time):
    """What is said of a claim that was read: `yes`, a rule with its leg, or the journey's value."""
    value, legs = claim
    if not legs and not set(origins) & set(targets):
        return "no WrongEnd leg 0"
    for at in range(len(legs)):
        rule = broken_rule(timetable, legs, at, origins, targets, time)
        if rule:
            return f"no {rule} leg {at}"
    return "yes" if value == value_of(legs, time) else value_of(legs, time)
