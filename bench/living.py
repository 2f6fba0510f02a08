"""A client of `live`: one process of the program, which is asked over a pipe."""
import subprocess
import time

from harness import BenchError

# How a line begins that says what became of a day; a reply begins with its number.
NEWS = ("edition ", "refused ")


class Living:
    """A process that lives. The end of a `with` block ends its input, and waits for its end."""

    def __init__(self, program, words):
        pipes = {"stdin": subprocess.PIPE, "stdout": subprocess.PIPE}
        self.process = subprocess.Popen([program, *words], stderr=subprocess.DEVNULL, **pipes)
        # what became of days so far, line by line; and in the end the status
        self.news, self.status = [], None

    def __enter__(self):
        return self

    def __exit__(self, *_):
        self.end()

    def line(self):
        """The next line that comes."""
        line = self.process.stdout.readline()
        if not line:
            raise BenchError("the process that lives has ended")
        return line.decode().rstrip("\n")

    def start(self):
        """Waits until the first day is published."""
        while not self.news:
            self.news.append(self.line())

    def send(self, line):
        """Writes a line."""
        self.process.stdin.write(f"{line}\n".encode())
        self.process.stdin.flush()

    def reply(self):
        """The lines of the next reply. What became of days before it goes to `news`."""
        lines = [self.line()]
        while lines[0].startswith(NEWS):
            self.news.append(lines[0])
            lines = [self.line()]
        while lines[-1]:
            lines.append(self.line())
        return lines[:-1]

    def ask(self, line):
        """The lines of the reply to a line that has words."""
        self.send(line)
        return self.reply()

    def timed(self, line):
        """The seconds by the clock from a line to its whole reply."""
        begin = time.perf_counter()
        self.ask(line)
        return time.perf_counter() - begin

    def end(self):
        """Ends the input; the lines that still come."""
        if self.status is not None:
            return []
        with self.process:
            self.process.stdin.close()
            lines = self.process.stdout.read().decode().splitlines()
        self.news += [line for line in lines if line.startswith(NEWS)]
        self.status = self.process.returncode
        return lines
