"""A process that is asked by lines and answers by lines of JSON.

Two threads stand beside the callers: one writes the lines that wait, all that there are up to what
the process takes as one turn, and one reads whatever comes. Neither ever waits for a caller, so no
pipe stays full whatever the callers do.
"""
import contextlib
import functools
import json
import os
import signal
import subprocess
import tempfile
import threading
from collections import deque
from collections.abc import Callable, Sequence
from concurrent.futures import Future
from dataclasses import dataclass, field
from typing import Any, Generic, TypeVar

from .faults import (
    Closed,
    Elsewhere,
    FeedRefused,
    NoProgram,
    ProcessConfused,
    ProcessEnded,
    RouterError,
)

Json = dict[str, Any]
T = TypeVar("T")

TURN = 65_536
"""The bytes of lines after which no further line is written at the same time."""
PATIENCE = 5.0
"""The seconds that a process has to end in once it has closed its output."""
ONLY_PROVED = {"ROUTER_ONLY_PROVED": "1"}
"""Without a proved program the launcher ends: the quick build answers nothing before all lines are
there.
"""
FEED_REFUSED = 3
"""The status with which the program ends if the first day is refused."""

_alive: set["Process"] = set()
"""Those whose pipes a fork inherits."""


@dataclass(slots=True)
class Asked(Generic[T]):
    """A line, and what is made of its reply."""

    line: bytes
    read: Callable[[Json], T]
    result: Future[T] = field(default_factory=Future)

    def answer(self, reply: Json) -> None:
        try:
            value = self.read(reply)
        except RouterError as error:
            self.result.set_exception(error)
        except Exception as error:
            self.result.set_exception(ProcessConfused(f"a reply of another form: {error!r}"))
            raise
        else:
            self.result.set_result(value)


class Process:
    """The process, from its start to its end. Of what it writes the replies go to those who asked,
    in order; each other line is news, which `tell` gets, in the thread that reads.
    """

    def __init__(self, command: Sequence[str], tell: Callable[[Json], None]):
        self._tell = tell
        self._errors = tempfile.TemporaryFile()
        try:
            self._child = subprocess.Popen(
                command,
                stdin=subprocess.PIPE,
                stdout=subprocess.PIPE,
                stderr=self._errors,
                bufsize=TURN,
                env=os.environ | ONLY_PROVED,
                # so that Ctrl-C interrupts whoever waits, and not the process
                process_group=0,
            )
        except OSError as error:
            self._errors.close()
            raise NoProgram(f"{command[0]} can't be started: {error.strerror}") from error
        self._owner = os.getpid()
        # guards the following; whoever changes one of them says so
        self._changed = threading.Condition()
        self._waiting: deque[Asked[Any]] = deque()
        self._nudged = False
        self._written: deque[Asked[Any]] = deque()
        self._closing = False
        self._killed = False
        self._end: Callable[[], RouterError] | None = None
        self._answered = 0
        self._threads = [
            threading.Thread(target=work, name=f"yuccadarts {name}", daemon=True)
            for name, work in (("writer", self._write), ("reader", self._read))
        ]
        for thread in self._threads:
            thread.start()
        with self._changed:
            if not self._end:
                _alive.add(self)

    @property
    def pid(self) -> int:
        return self._child.pid

    def ask(self, line: str, read: Callable[[Json], T]) -> Future[T]:
        """Has a line written, and gives what will be read from its reply, or why there is none."""
        asked = Asked(line.encode() + b"\n", read)
        self.refuse_elsewhere()
        with self._changed:
            self._refuse_if_over()
            self._waiting.append(asked)
            self._changed.notify()
        return asked.result

    def nudge(self) -> None:
        """Has an empty line written, which has no reply: the process begins a turn, and tells what
        news there is.
        """
        self.refuse_elsewhere()
        with self._changed:
            self._refuse_if_over()
            self._nudged = True
            self._changed.notify()

    def close(self, patience: float) -> None:
        """Lets the process answer what was asked, and end; ends it after so many seconds."""
        if os.getpid() != self._owner:
            return
        with self._changed:
            self._closing = True
            self._changed.notify()
        reader = self._threads[1]
        reader.join(patience)
        if reader.is_alive():
            self._kill()
        for thread in self._threads:
            thread.join()

    def refuse_elsewhere(self) -> None:
        """A fork has no threads that write and read, and the lock may be held for ever there."""
        if os.getpid() != self._owner:
            raise Elsewhere

    def let_go(self, nothing: int) -> None:
        """In a fork: puts an empty file in each pipe's place. Else the process wouldn't see its
        input end before the fork does, and what is half written here would be written twice.
        """
        for pipe in (self._child.stdin, self._child.stdout):
            # one that is closed has no number
            with contextlib.suppress(ValueError):
                assert pipe
                os.dup2(nothing, pipe.fileno(), inheritable=False)

    def _kill(self) -> None:
        """Ends the process, and what it started: it is the first of a group."""
        self._killed = True
        with contextlib.suppress(ProcessLookupError, PermissionError):
            os.killpg(self._child.pid, signal.SIGKILL)

    def _refuse_if_over(self) -> None:
        if self._end:
            raise self._end()
        if self._closing:
            raise Closed

    # The thread that writes.

    def _write(self) -> None:
        stdin = self._child.stdin
        assert stdin
        try:
            # where it can't be written the process has ended, and the thread that reads sees why
            with contextlib.suppress(OSError), stdin:
                while turn := self._next_turn():
                    stdin.write(turn)
                    stdin.flush()
        except BaseException:
            # nobody may be left waiting, whatever it is
            self._kill()
            raise

    def _next_turn(self) -> bytes:
        """The lines that wait, as soon as there are some; nothing when there will be no more."""
        with self._changed:
            self._changed.wait_for(
                lambda: self._waiting or self._nudged or self._closing or self._end
            )
            if self._end:
                return b""
            turn = bytearray(b"\n" if self._nudged else b"")
            self._nudged = False
            while self._waiting and len(turn) < TURN:
                asked = self._waiting.popleft()
                self._written.append(asked)
                turn += asked.line
            return bytes(turn)

    # The thread that reads.

    def _read(self) -> None:
        stdout = self._child.stdout
        assert stdout
        confused = None
        try:
            with stdout:
                for line in stdout:
                    # only the last line of a process that died is cut off
                    if line.endswith(b"\n"):
                        self._take(json.loads(line))
        except Exception as error:
            # nobody may be left waiting, whatever it is
            confused = f"the process wrote what is no reply: {error!r}"
            self._kill()
        self._finish(confused)

    def _take(self, said: Json) -> None:
        number = said.get("request")
        if number is None:
            self._tell(said)
            return
        self._answered += 1
        if number != self._answered:
            raise ValueError(f"reply {number} in place of {self._answered}")
        with self._changed:
            asked = self._written.popleft()
        asked.answer(said)

    def _finish(self, confused: str | None) -> None:
        """Tells everybody who waits that the process has ended, and why."""
        status = self._wait()
        with self._errors:
            self._errors.seek(0)
            errors = self._errors.read().decode(errors="replace")
        with self._changed:
            self._end = self._reason(confused, status, errors)
            _alive.discard(self)
            left = [*self._written, *self._waiting]
            self._written.clear()
            self._waiting.clear()
            self._changed.notify()
        for asked in left:
            asked.result.set_exception(self._end())

    def _wait(self) -> int:
        try:
            return self._child.wait(PATIENCE)
        except subprocess.TimeoutExpired:
            self._kill()
            return self._child.wait()

    def _reason(self, confused: str | None, status: int, errors: str) -> Callable[[], RouterError]:
        """What makes the exception for one who waits: each gets one of his own."""
        if confused:
            return functools.partial(ProcessConfused, confused)
        if self._closing and (status == 0 or self._killed):
            return Closed
        fault = fault_of(errors) if status == FEED_REFUSED else None
        if fault:
            return functools.partial(FeedRefused, fault)
        return functools.partial(ProcessEnded, status, errors)


def _let_go() -> None:
    nothing = os.open(os.devnull, os.O_RDWR)
    for process in _alive:
        process.let_go(nothing)
    os.close(nothing)


os.register_at_fork(after_in_child=_let_go)


def fault_of(errors: str) -> Json | None:
    """The fault that a line of standard error names."""
    for line in reversed(errors.splitlines()):
        with contextlib.suppress(ValueError, LookupError, TypeError):
            fault: Json = json.loads(line)["fault"]
            return fault
    return None
