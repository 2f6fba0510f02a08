"""A made feed, written into a folder.

The same words give the same bytes.
"""
from feeds import city, limits, network, shapes
from harness import count


def add_arguments(parser):
    kinds = parser.add_subparsers(metavar="KIND", required=True)
    add_city(kinds.add_parser("city", help="a city, whose trips overtake"))
    add_network(kinds.add_parser("network", help="a feed with the density of a real network"))
    add_shape(kinds.add_parser("shape", help="a feed of a shape that is made to cost time"))
    add_limit(kinds.add_parser("limit", help="a feed at a limit of the program"))


def add_city(parser):
    parser.description = city.__doc__
    parser.add_argument("folder", metavar="FOLDER")
    parser.add_argument("size", metavar="TRIPS", type=count)
    parser.add_argument("--seed", type=int, default=7)
    parser.set_defaults(make=lambda words: city.make(words.folder, words.size, words.seed))


def add_network(parser):
    parser.description = network.__doc__
    parser.add_argument("folder", metavar="FOLDER")
    parser.add_argument("size", metavar="PATTERNS", type=count)
    parser.add_argument("--seed", type=int, default=7)
    parser.add_argument("--half", choices=network.HALVES, help="how every second route runs")
    parser.set_defaults(
        make=lambda words: network.make(words.folder, words.size, words.seed, words.half)
    )


def add_shape(parser):
    parser.add_argument("folder", metavar="FOLDER")
    parser.add_argument("name", metavar="NAME", choices=shapes.SHAPES, help=" ".join(shapes.SHAPES))
    parser.add_argument("--size", type=count, help="the size (else that of hostile-shapes)")

    def make(words):
        shape = shapes.SHAPES[words.name]
        shape.make(words.folder, words.size or shape.size)

    parser.set_defaults(make=make)


def add_limit(parser):
    parser.add_argument("folder", metavar="FOLDER")
    parser.add_argument("name", metavar="NAME", choices=limits.FEEDS, help=" ".join(limits.FEEDS))
    parser.add_argument("--past", action="store_true", help="make one more than the limit")
    parser.set_defaults(make=lambda words: limits.FEEDS[words.name](words.folder, int(words.past)))


def run(words):
    words.make(words)
    return 0
