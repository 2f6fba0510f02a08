"""Names and numbers that a hash with a known start takes for alike.

The maps of the toolchain's `indexmap` hash by its `FoldHasher`, which begins with a known number
unless a map is given another start: the program's begin with bytes that the machine draws, so what
is made here costs it as much as other names. The tables have groups of twelve places. A key is
looked for from the group on that the lowest bits of its hash name, and is compared where the
highest eight bits, its tag, are equal. What is made here begins in the first part of the groups and
has one tag, so that each key is compared with all before it. That takes thousands of tries for each
key, so a small program in C makes them.
"""
import atexit
import functools
import os
import shutil
import subprocess
import tempfile

from harness import BenchError, write

ALL = 2**64 - 1
START = 0x243F6A8885A308D3
FACTOR = 0x9E3779B97F4A7C15
# How many keys a group holds on average before the table grows, and in which part of its groups the
# keys that are made begin.
GROUP_LOAD = 9
PART = 64
TAG = 0xFF000000
# The letters of names, which have a fixed number of them.
LETTERS = "0123456789ABCDEFGHIJKLMNOPQRSTUVWXYZabcdefghijklmnopqrstuvwxyz"
LENGTH = 8

SEARCH = r"""
#include <inttypes.h>
#include <stdio.h>
#include <stdlib.h>
#include <string.h>
typedef uint64_t u64;
static const u64 START = 0x243f6a8885a308d3, FACTOR = 0x9e3779b97f4a7c15;
static const char LETTERS[] = "0123456789ABCDEFGHIJKLMNOPQRSTUVWXYZabcdefghijklmnopqrstuvwxyz";
static u64 zero, left;
static u64 folded(u64 a, u64 b) {
    unsigned __int128 product = (unsigned __int128)a * b;
    return (u64)product ^ (u64)(product >> 64);
}
static u64 with_byte(u64 state, u64 b) { return folded(state ^ b * 0x010101, FACTOR ^ 2); }
static u64 with_u32(u64 state, u64 n) { return folded(state ^ n ^ n << 32, FACTOR ^ 8); }
static u64 with_u64(u64 state, u64 n) { return folded(state ^ n, FACTOR ^ 16); }
static int hits(u64 state) { return !((state ^ state >> 32) & zero); }
static void names(char *name, int at, u64 state) {
    for (int i = 0; i < 62 && left; i++) {
        name[at] = LETTERS[i];
        u64 next = with_byte(state, (unsigned char)name[at]);
        if (name[at + 1]) names(name, at + 1, next);
        else if (hits(next)) left--, puts(name);
    }
}
static void pairs(u64 stops) {
    for (u64 from = 0; from < stops && left; from++)
        for (u64 to = 0; to < stops && left; to++)
            if (hits(with_u64(START, from * 100000 + to)))
                left--, printf("%" PRIu64 " %" PRIu64 "\n", from, to);
}
static void sequences(void) {
    for (u64 trip = 0; left; trip++) {
        u64 state = with_u32(START, trip);
        for (u64 number = 0; number < 1000000000 && left; number++)
            if (hits(with_u32(state, number)))
                left--, printf("%" PRIu64 " %" PRIu64 "\n", trip, number);
    }
}
static void patterns(u64 count, u64 stops) {
    for (u64 from = 0; from < stops && left; from++)
        for (u64 to = 0; to < stops && left; to++) {
            u64 hash = ((from * FACTOR) ^ 3) * FACTOR;
            hash = (((hash ^ to) * FACTOR) ^ 3) * FACTOR;
            if ((hash >> 32) % count == 0)
                left--, printf("%" PRIu64 " %" PRIu64 "\n", from, to);
        }
}
int main(int argc, char **argv) {
    char name[16] = "00000000";
    left = strtoull(argv[2], 0, 10);
    u64 count = left, number = strtoull(argv[3], 0, 10);
    zero = number;
    if (!strcmp(argv[1], "names")) names(name, 0, with_u64(START, strlen(name)));
    if (!strcmp(argv[1], "sequences")) sequences();
    if (!strcmp(argv[1], "pairs")) pairs(strtoull(argv[4], 0, 10));
    if (!strcmp(argv[1], "patterns")) patterns(count, number);
    return left != 0;
}
"""


def folded(a, b):
    return a * b & ALL ^ a * b >> 64


def table_hash(words, start=START):
    """The hash that a table has of a key, which is hashed as these numbers of so many bytes."""
    state = start
    for number, size in words:
        word = {1: number * 0x010101, 4: number | number << 32, 8: number}[size]
        state = folded(state ^ word, FACTOR ^ 2 * size)
    return (state ^ state >> 32) & 0xFFFFFFFF


def name_hash(name, start=START):
    return table_hash([(len(name), 8), *((byte, 1) for byte in name.encode())], start)


def groups_of(count):
    """How many groups a table has with so many keys that came one by one."""
    groups = 1
    while GROUP_LOAD * groups < count:
        groups *= 2
    return groups


def zero_bits(count):
    """The bits of a hash that are 0 in all of so many keys."""
    groups = groups_of(count)
    return TAG | (groups - 1) & ~(max(1, groups // PART) - 1)


@functools.lru_cache(maxsize=None)
def program():
    """The program that searches, which is there as long as this one runs."""
    if not shutil.which("cc"):
        raise BenchError("there is no C compiler 'cc'")
    folder = tempfile.mkdtemp()
    atexit.register(shutil.rmtree, folder)
    write(folder, "search.c", SEARCH)
    if subprocess.run(["cc", "-O2", "-o", "search", "search.c"], cwd=folder).returncode:
        raise BenchError("the C compiler doesn't compile the search for keys that collide")
    return os.path.join(folder, "search")


def found(kind, count, *numbers):
    words = [program(), kind, str(count), *map(str, numbers)]
    run = subprocess.run(words, stdout=subprocess.PIPE, check=True, text=True)
    return run.stdout.split("\n")[:-1]


def numbers(lines):
    return [tuple(map(int, line.split())) for line in lines]


def names(count):
    """So many names of eight letters."""
    return found("names", count, zero_bits(count))


def pairs(count):
    """A number of stops, and so many pairs of their numbers, as transfers.txt may have them."""
    stops = min(100_000, 400 + int((2.2 * count * (1 << bin(zero_bits(count)).count("1"))) ** 0.5))
    return stops, numbers(found("pairs", count, zero_bits(count), stops))


def sequences(count):
    """So many pairs of a trip's number and of a `stop_sequence`."""
    return numbers(found("sequences", count, zero_bits(count)))


def patterns(count):
    """A number of stops, and so many pairs of their numbers: the patterns of trips of two stops
    that fall into one of as many buckets, by the hash of line_split, which has no key.
    """
    stops = min(100_000, 2 * count)
    return stops, numbers(found("patterns", count, stops))
