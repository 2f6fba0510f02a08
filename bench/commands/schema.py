"""What the commands write with --json, checked by the schemas in docs/schema.

Runs each example of the documents that asks for an answer once more with --json, and some examples
with names that need escapes and with words or files that are refused, and checks each line that
comes by the schema of its command. Each journey that ask and profile write is a claim: it checks
that verify says it is one. Prints one line for each run. Needs python3-jsonschema.
"""
import json
import os
import shlex
import subprocess
import tempfile

from commands.documents import documents, examples, lines_of
from harness import TOP, BenchError, router
from said.texts import day_of

SCHEMAS = os.path.join(TOP, "docs", "schema")
REFUSAL = "refusal"
CLAIM = "claim"
# The status of a check that tells faults.
FAULTS_FOUND = 10
# What stands in a line of a claim, by its first word.
LEGS = {
    "walk": ("from", "to", "seconds"),
    "ride": ("trip", "from", "departure", "to", "arrival"),
}
# The stop's name has a quote, a backslash, a tab and a letter beyond ASCII.
NAMED = 'a "b" \\ \t \u00e9'
FILES = {
    "stops.txt": ["stop_id", '"a ""b"" \\ \t \u00e9"', "C"],
    "calendar.txt": [
        "service_id,monday,tuesday,wednesday,thursday,friday,saturday,sunday,start_date,end_date",
        "S,1,1,1,1,1,1,1,20260101,20261231",
    ],
    "trips.txt": ["service_id,trip_id", "S,T 1"],
    "stop_times.txt": [
        "trip_id,arrival_time,departure_time,stop_id,stop_sequence",
        'T 1,24:10:00,24:10:00,"a ""b"" \\ \t \u00e9",1',
        "T 1,24:20:00,24:20:00,C,2",
    ],
}
# Rows of stop_times.txt with a fault.
WRONG = ["T 2,24:10:00,24:10:00,C,1", ",24:10:00,24:10:00,C,2"]


def add_arguments(parser):
    pass


def validators():
    """A validator for each schema, by its name."""
    try:
        import jsonschema
    except ImportError:
        raise BenchError("python3-jsonschema isn't there") from None
    schemas = {}
    for file in sorted(os.listdir(SCHEMAS)):
        with open(os.path.join(SCHEMAS, file), encoding="utf-8") as text:
            schemas[file] = json.load(text)
    kind = jsonschema.Draft202012Validator
    for schema in schemas.values():
        kind.check_schema(schema)
    return {
        file.removesuffix(".json"): kind(
            schema, resolver=jsonschema.RefResolver(file, schema, store=schemas)
        )
        for file, schema in schemas.items()
    }


def claim_of(text):
    """A claim in lines, as JSON."""
    (_, arrive, _, rides), *legs = (shlex.split(line) for line in text.splitlines())
    claim = {"arrive": arrive, "rides": int(rides), "legs": []}
    for kind, *words in legs:
        leg = dict(zip(LEGS[kind], words))
        if "seconds" in leg:
            leg["seconds"] = int(leg["seconds"])
        day = day_of(words[5:]) if kind == "ride" else 0
        if day:
            leg["day"] = day
        claim["legs"].append(leg)
    return json.dumps(claim)


def given_to(words, path):
    """What a command of the documents reads from a file."""
    with open(os.path.join(TOP, path), encoding="utf-8") as file:
        text = file.read()
    return claim_of(text) if name_of(words) == "verify" else text


def asked():
    """The commands of the documents that ask the program something: their words, and what they
    read from standard input."""
    for path in documents():
        for command, _ in examples(lines_of(path)):
            words = shlex.split(command)
            if words[0] != "./router" or {"--json", "--help", "--version"} & set(words):
                continue
            given = None
            if "<" in words:
                words, given = words[: words.index("<")], words[-1]
            if not any(sign in words for sign in "|>;"):
                yield words[1:], given_to(words[1:], given) if given else ""


def feed_of(folder, name, files):
    """The path of a feed of these files."""
    feed = os.path.join(folder, name)
    os.mkdir(feed)
    for name, rows in files.items():
        with open(os.path.join(feed, name), "w", encoding="utf-8") as file:
            file.write("".join(f"{row}\n" for row in rows))
    return feed


def more(folder):
    """Commands whose names need escapes, some that are refused, and some over a feed with faults."""
    feed = feed_of(folder, "named", FILES)
    wrong = feed_of(folder, "wrong", {**FILES, "stop_times.txt": [*FILES["stop_times.txt"], *WRONG]})
    day, ends, late = "20260303", [NAMED, "C"], "00:00:00"
    quoted = NAMED.replace('"', '""')
    script = (
        f'lane "l \\ 1"\nask "{quoted}" C {late}\nsince 2 reach "{quoted}" {late}\n'
        f'ask X C {late}\nreach "{quoted}" {late}\ntimes C {late} {late} 1\nprofile "{quoted}" C {late} 26:00:00\n'
    )
    updates, none = os.path.join(folder, "updates"), os.path.join(folder, "none")
    for path, line in ((updates, "late T-none 0 60\n"), (none, "")):
        with open(path, "w", encoding="utf-8") as file:
            file.write(line)
    claim = claim_of(
        f"arrive 00:20:00 rides 1\nride 'T 1' {shlex.quote(NAMED)} 00:10:00 C 00:20:00 day-before"
    )
    yield ["direct", feed, day, *ends, late], ""
    yield ["direct", feed, day, *reversed(ends), late], ""
    yield ["ask", feed, day, *ends, late], ""
    for leave in ("25:00:00", "49:00:00"):
        yield ["--days", "3", "ask", feed, day, *ends, leave], ""
    yield ["ask", feed, day, "no \\ stop", "C", late], ""
    yield ["profile", feed, day, *ends, late, "26:00:00"], ""
    yield ["latest", feed, day, *ends, "26:00:00"], ""
    yield ["reach", feed, day, NAMED, late], ""
    yield ["times", feed, day, NAMED, late, "00:20:00", "300", "rides", "1"], ""
    yield ["matrix", feed, day, "-", late, "00:20:00", "300"], f'"{quoted}"\nC\nX\n'
    yield ["matrix", feed, day, "-", late, "00:20:00", "300"], "A B\n"
    yield ["matrix", feed, day, f"{feed}-none", late, "00:20:00", "300"], ""
    yield ["build", feed, day, "list"], ""
    yield ["serve", f"{feed}@{day}", f"{feed}-none@{day}", f"late:{updates}", f"late:{none}"], script
    lines = (
        f'# lines\nask "{quoted}" C {late}\nask X C {late}\nask X\nreach X 8\n'
        f'publish {feed}@{day}\npublish {feed}-none@{day}\nsince 9 reach C {late}\n'
        f'latest "{quoted}" C 26:00:00\nlate "{updates}"\nlate "{none}"\n'
    )
    yield ["--mirror", "--lanes", "2", "live", f"{feed}@{day}"], lines
    yield ["live", f"{feed}-none@{day}"], lines
    yield ["city", "4"], ""
    yield ["ask", f"{feed}-none", day, *ends, late], ""
    yield ["serve", f"{feed}@{day}"], "\n".join(FILES["stops.txt"])
    yield ["verify", feed, day, *ends, late], claim
    yield ["verify", feed, day, *ends, "00:10:01"], claim
    yield ["verify", feed, day, *ends, late], claim.replace('"rides": 1', '"rides": 2')
    yield ["verify", feed, day, *ends, late], script
    yield ["late", feed, day, updates, *ends, late], ""
    yield ["ask", feed], ""
    for checked in (feed, wrong, f"{feed}-none"):
        yield ["check", checked, day], ""
    yield ["--lenient", "direct", wrong, day, *ends, late], ""
    yield ["ask", wrong, day, *ends, late], ""


def faults(validator, text):
    """What is wrong with the lines of a text."""
    for number, line in enumerate(text.splitlines(), 1):
        try:
            for fault in validator.iter_errors(json.loads(line)):
                yield f"line {number}: {fault.message}"
        except ValueError as error:
            yield f"line {number}: {error}"


def name_of(words):
    """The name of the command among words, which stands behind the options."""
    takes_one = ("--change", "--station", "--days", "--workers", "--lanes")
    for place, word in enumerate(words):
        if not word.startswith("-") and (place == 0 or words[place - 1] not in takes_one):
            return word
    return words[0]


def answer(program, words, given):
    """How a command with --json ends: its status, and what it writes."""
    ended = subprocess.run(
        [program, "--json", *words], cwd=TOP, input=given.encode(), capture_output=True
    )
    return ended.returncode, ended.stdout.decode(), ended.stderr.decode()


def claims_of(words, out):
    """Each journey that ask or profile wrote, and the words by which verify holds it to be one."""
    place = words.index(name_of(words))
    if words[place] not in ("ask", "profile") or "unknown_stop" in out:
        return
    asks = [*words[:place], "verify", *words[place + 1 : place + 6]]
    for line in out.splitlines():
        yield asks, line


def run(words):
    schemas = validators()
    program = router()
    bad = 0
    with tempfile.TemporaryDirectory() as folder:
        for asks, given in [*asked(), *more(folder)]:
            status, out, err = answer(program, asks, given)
            found = [*faults(schemas[name_of(asks)], out), *faults(schemas[REFUSAL], err)]
            says = status not in (0, FAULTS_FOUND) or "--lenient" in asks
            if says != bool(err):
                found.append(f"status {status}, and on standard error {err!r}")
            for holds, claim in claims_of(asks, out):
                found += faults(schemas[CLAIM], claim)
                said = answer(program, holds, claim)
                if said != (0, '{"valid":true}\n', err):
                    found.append(f"verify says {said} of {claim}")
            bad += bool(found)
            print(f"{'DIFFERS' if found else 'ok'}: {status} {shlex.join(asks)}")
            for fault in found:
                print(f"  {fault}")
    return 1 if bad else 0
