"""The examples of the documents, run and compared.

An example is a line `$ COMMAND` of an indented block, with what it prints below it. Runs each
command at the top of the checkout, with the proved program as `./router` if one is built, even of
older sources, and compares the lines that it prints with those of the document. Prints one line for
each command, and the lines that differ.
"""
import difflib
import glob
import os
import shlex
import subprocess
import sys

from harness import TOP, BenchError, router


def add_arguments(parser):
    every = "*.md and docs/*.md"
    parser.add_argument("files", metavar="FILE", nargs="*", help=f"documents (else {every})")


def documents():
    """The paths of all documents, from the top of the checkout."""
    found = [path for it in ("*.md", "docs/*.md") for path in glob.glob(os.path.join(TOP, it))]
    return [os.path.relpath(path, TOP) for path in sorted(found)]


def examples(lines):
    """The commands among the lines of a document, each with the lines that it is said to print."""
    command, printed = None, []
    for line in [*lines, ""]:
        begins = line.startswith("    $ ")
        if command and (begins or not line.startswith("    ")):
            yield command, printed
            command = None
        if begins:
            command, printed = line[6:], []
        elif command:
            printed.append(line[4:])


def lines_of(path):
    try:
        with open(os.path.join(TOP, path), encoding="utf-8") as file:
            return file.read().split("\n")
    except OSError as error:
        raise BenchError(f"{path} can't be read: {error.strerror}") from None


def program():
    """What `./router` stands for: the proved program, or the launcher itself."""
    try:
        return shlex.quote(router())
    except BenchError as error:
        print(f"bench: {error}; until then each command takes minutes", file=sys.stderr)
        return "./router"


def run_command(command):
    """The lines that a command writes to standard output."""
    run = subprocess.run(["sh", "-c", command], cwd=TOP, stdout=subprocess.PIPE, text=True)
    return run.stdout.splitlines()


def run(words):
    bad = 0
    stands_for = program()
    for path in words.files or documents():
        for command, wanted in examples(lines_of(path)):
            printed = run_command(command.replace("./router", stands_for))
            bad += printed != wanted
            print(f"{'ok' if printed == wanted else 'DIFFERS'}: {path}: {command}", flush=True)
            for line in difflib.unified_diff(wanted, printed, "document", "printed", lineterm=""):
                print(f"  {line}", flush=True)
    return 1 if bad else 0
