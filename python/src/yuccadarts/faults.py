"""Why there is no answer."""
import signal
from typing import Any


class RouterError(Exception):
    """What every exception of this package is, but for a ValueError at a word that no line can
    have.
    """


class NoProgram(RouterError):
    """The program isn't found, or can't be started."""


class UnknownStop(RouterError):
    """A name of the question is no stop and no station of the edition."""

    def __init__(self, stop: str, edition: int):
        super().__init__(f"unknown stop {stop}")
        self.stop = stop
        self.edition = edition


class Refused(RouterError):
    """A fault, by its number and name, and where it is: None where the fault has no such part.
    docs/FORMATS.md has all of them.
    """

    number: int | None
    name: str
    file: str | None
    row: int | None
    """Counted from 1, which is the header."""
    column: str | None
    """The name of the column."""
    stops: tuple[str, ...]
    quantity: str | None

    def __init__(self, fault: dict[str, Any]):
        super().__init__(shown(fault))
        self.number = fault.get("number")
        self.name = fault["name"]
        self.file = fault.get("file")
        self.row = fault.get("row")
        self.column = fault.get("column")
        self.stops = tuple(fault.get("stops", ()))
        self.quantity = fault.get("quantity")


class FeedRefused(Refused):
    """A day isn't published, for its feed has this first fault."""


class UpdatesRefused(Refused):
    """A day isn't amended, for the file of updates has this first fault."""

    line: int | None
    """Counted from 1; of a list it is the number of the update. None where the whole file is
    meant.
    """

    def __init__(self, fault: dict[str, Any]):
        super().__init__(fault)
        self.line = fault.get("line")


class NotPublished(RouterError):
    """A day isn't published, for a file couldn't be read, or memory didn't suffice."""

    def __init__(self, day: str, message: str):
        super().__init__(f"{day}: {message}")
        self.day = day


class LineRefused(Refused):
    """The line of a question or a day has a fault: it is too long, of more than 1,024 bytes, a time
    is too late, there are too many departures, or a day is none.
    """


class ProcessEnded(RouterError):
    """The process has ended: with which status (below 0: by that signal), and what it wrote on
    standard error.
    """

    def __init__(self, status: int, errors: str):
        end = f"by {signal_name(-status)}" if status < 0 else f"with status {status}"
        super().__init__(f"the process ended {end}, and wrote {errors.strip() or 'nothing'}")
        self.status = status
        self.errors = errors


class ProcessConfused(RouterError):
    """The process wrote what isn't a reply to what was asked, and was ended for that."""


class Closed(RouterError):
    """The router is closed."""

    def __init__(self) -> None:
        super().__init__("the router is closed")


class Elsewhere(RouterError):
    """The router is another process's, from which this one was forked: it needs one of its own."""

    def __init__(self) -> None:
        super().__init__("the router is another process's, from which this one was forked")


def shown(fault: dict[str, Any]) -> str:
    """A fault as the program's texts show it."""
    words = [fault.get("number"), fault["name"], fault.get("file"), fault.get("quantity")]
    words += fault.get("stops", ())
    words += [f"{name} {fault[name]}" for name in ("row", "column", "line") if name in fault]
    return " ".join(str(word) for word in words if word is not None)


def signal_name(number: int) -> str:
    try:
        return signal.Signals(number).name
    except ValueError:
        return f"signal {number}"
