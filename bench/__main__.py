"""Measures and tests the proved program, and makes feeds for that: python3 bench COMMAND"""
import argparse
import importlib
import sys

from harness import BenchError

COMMANDS = (
    "measure",
    "beside",
    "queries",
    "frequencies",
    "lanes",
    "live",
    "study",
    "limits",
    "hostile-shapes",
    "fuzz",
    "outside-faults",
    "refused-memory",
    "statuses",
    "gate-cost",
    "documents",
    "schema",
    "make",
    "delays",
)


def parser():
    whole = argparse.ArgumentParser(prog="python3 bench", description=__doc__.partition(":")[0])
    commands = whole.add_subparsers(metavar="COMMAND", required=True)
    for name in COMMANDS:
        module = importlib.import_module(f"commands.{name.replace('-', '_')}")
        one = commands.add_parser(
            name,
            help=module.__doc__.splitlines()[0].rstrip("."),
            description=module.__doc__,
            formatter_class=argparse.RawDescriptionHelpFormatter,
        )
        module.add_arguments(one)
        one.set_defaults(run=module.run)
    return whole


def main():
    words = parser().parse_args()
    try:
        return words.run(words)
    except BenchError as error:
        print(f"bench: {error}", file=sys.stderr)
    except KeyboardInterrupt:
        print("bench: stopped", file=sys.stderr)
    except BrokenPipeError:
        # whoever read the output has enough of it
        sys.stderr.close()
    except OSError as error:
        print(f"bench: {error}", file=sys.stderr)
    return 1


if __name__ == "__main__":
    sys.exit(main())
