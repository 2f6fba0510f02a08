"""What is seen of a build while it goes, and how long the rest of it will take."""
import shutil
import sys
import time


def shown(seconds):
    """A duration as one says it: `41 s`, `9 min`, `1 h 20 min`."""
    if seconds < 100:
        return f"{seconds:.0f} s"
    minutes = round(seconds / 60)
    return f"{minutes} min" if minutes < 60 else f"{minutes // 60} h {minutes % 60:02} min"


class Estimate:
    """How long crates will take: the seconds that each took in the last run, all of them as much
    longer or shorter now as the crates that are done took. A crate that never ran here takes as
    much for each of its lines as the others do.
    """

    def __init__(self, libraries, lines, figures, processors):
        self.libraries, self.lines, self.processors = libraries, lines, processors
        self.figures = {name: figures[name] for name in lines if name in figures}

    def expected(self, name):
        """The seconds of the last run; a second a line where there was none."""
        known = sum(self.lines[it] for it in self.figures)
        rate = sum(self.figures.values()) / known if known else 1
        return self.figures.get(name, rate * self.lines[name])

    def behind(self, name):
        """The seconds of the longest chain that begins with the crate, in which each stands on
        the one before.
        """
        longest = dict.fromkeys(self.lines, 0)
        # a crate stands below those that stand on it
        for crate in reversed(self.lines):
            longest[crate] += self.expected(crate)
            for it in self.libraries[crate]:
                longest[it] = max(longest.get(it, 0), longest[crate])
        return longest[name]

    def pace(self, took):
        """How much longer crates take than expected; 0 where nothing is known."""
        expected = sum(self.expected(name) for name in took)
        return sum(took.values()) / expected if expected else int(bool(self.figures))

    def left(self, done, took, running):
        """Seconds until the last crate is proved, or 0 where nothing is known. `done` has the names
        that are proved, `took` the seconds of those that this build proved, `running` the seconds
        that others have taken up to now.
        """
        work, ends, pace = 0, {}, self.pace(took)
        for name in self.lines:
            if name not in done:
                rest = max(pace * self.expected(name) - running.get(name, 0), 0)
                before = max((ends.get(it, 0) for it in self.libraries[name]), default=0)
                ends[name] = before + rest
                work += rest
        return max(max(ends.values(), default=0), work / self.processors)


class Progress:
    """A line for each crate that is proved, and on a terminal one more on what is at work."""

    def __init__(self, estimate):
        self.estimate, self.count = estimate, len(estimate.lines)
        self.begin = self.shown_at = time.monotonic()
        self.done, self.took = set(), {}
        self.is_terminal = sys.stdout.isatty()

    def say(self, text):
        self.clear()
        print(text, flush=True)

    def clear(self):
        print("\r\033[K" if self.is_terminal else "", end="", flush=True)

    def so_far(self):
        return f"{len(self.done)} of {self.count} proved"

    def proved(self, name, seconds, running):
        """A run has proved a crate, while others have been at work for so many seconds."""
        self.done.add(name)
        self.took[name] = seconds
        self.say(f"{self.so_far()}, {name} {shown(seconds)}; {self.times(running)}")

    def kept(self, name):
        self.done.add(name)
        self.say(f"{self.so_far()}, {name} in an earlier run")

    def times(self, running):
        left = self.estimate.left(self.done, self.took, running)
        so_far = f"{shown(time.monotonic() - self.begin)} so far"
        return f"{so_far}, about {shown(left)} left" if left >= 1 else so_far

    def look(self, running):
        """Shows which crates are at work, and for how many seconds each has been."""
        if not self.is_terminal or time.monotonic() < self.shown_at + 1:
            return
        self.shown_at = time.monotonic()
        at_work = [f"{name} {shown(seconds)}" for name, seconds in running.items()]
        text = f"  now {', '.join(at_work)}; {self.times(running)}"
        self.clear()
        print(text[: shutil.get_terminal_size().columns - 1], end="", flush=True)
