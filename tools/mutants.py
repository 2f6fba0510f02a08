#!/usr/bin/env python3
"""Tries the mutants of crates that `rt ci` leaves out.

They stand in crates/NAME/mutants, in the form of those in crates/NAME/must-fail, which `rt ci`
tries: for them it would prove these crates, the dearest ones, once more. This has `rt ci` try them
in a checkout of hard links, where it takes what it has proved on this machine, and ends with its
status.
"""
import argparse
import os
import shutil
import subprocess
import sys
import tempfile

TOP = os.path.dirname(os.path.dirname(os.path.realpath(__file__)))
# What the toolchain reads of a crate.
PARTS = ("src", "specs", "proofs")
LEFT_OUT, TRIED = "mutants", "must-fail"


def crates_with_mutants():
    """The crates that have mutants which `rt ci` leaves out."""
    crates = sorted(os.listdir(f"{TOP}/crates"))
    return [name for name in crates if os.path.isdir(f"{TOP}/crates/{name}/{LEFT_OUT}")]


def link(name, part, room, to):
    """Makes hard links of a part of a crate, if it has that, in a room: no copy, and no link that
    leads out of the room.
    """
    found = f"{TOP}/crates/{name}/{part}"
    if os.path.isdir(found):
        shutil.copytree(found, f"{room}/crates/{name}/{to}", copy_function=os.link)


def fill(room, name):
    """Makes a checkout of a room, in which one crate's mutants stand where they are tried."""
    for file in ("crates.txt", "HANDLES"):
        shutil.copy(f"{TOP}/{file}", room)
    for crate in os.listdir(f"{TOP}/crates"):
        for part in PARTS:
            link(crate, part, room, part)
    link(name, LEFT_OUT, room, TRIED)


def try_mutants(name):
    """The status of `rt ci` where a crate's mutants are tried: 0 if each is refused."""
    with tempfile.TemporaryDirectory(prefix="mutants-", dir=f"{TOP}/.git") as room:
        fill(room, name)
        return subprocess.run(["rt", "ci", name], cwd=room, check=False).returncode


def main(words):
    known = crates_with_mutants()
    parser = argparse.ArgumentParser(description=__doc__.split("\n", 1)[0])
    text = f"a crate (else {', '.join(known)})"
    parser.add_argument("names", nargs="*", metavar="NAME", help=text)
    names = parser.parse_args(words).names or known
    for name in names:
        if name not in known:
            parser.error(f"{name} has no folder {LEFT_OUT}")
    return max([try_mutants(name) for name in names], default=0)


if __name__ == "__main__":
    sys.exit(main(sys.argv[1:]))
