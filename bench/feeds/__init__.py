"""Feeds by a word: a folder that has one, or a made one of a size, as `city:20000`."""
import argparse
import contextlib
import os
import tempfile

from feeds import city, network

KINDS = {"city": city.make, "network": network.make}


def feed_word(text):
    """The word for a feed that an argument gives, if it is one."""
    kind, _, size = text.partition(":")
    if os.path.isdir(text) or kind in KINDS and size.isdecimal() and int(size) > 0:
        return text
    raise argparse.ArgumentTypeError(f"{text} is no folder, and neither city:N nor network:N")


def add_feed_argument(parser, *default):
    words = " ".join(default)
    parser.add_argument(
        "--feed",
        dest="feeds",
        metavar="FEED",
        type=feed_word,
        nargs="+",
        default=list(default),
        help=f"folders, city:TRIPS or network:PATTERNS, which are made (else {words})",
    )


@contextlib.contextmanager
def feed_of(word):
    """The name and the folder of the feed that a word stands for; a made one goes afterwards."""
    if os.path.isdir(word):
        yield os.path.basename(os.path.abspath(word)), word
        return
    kind, _, size = word.partition(":")
    with tempfile.TemporaryDirectory() as folder:
        KINDS[kind](folder, int(size))
        yield word, folder
