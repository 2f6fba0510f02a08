"""Changes of bytes, texts and words. Each takes a source of random numbers, and gives new bytes."""

NUMBERS = (
    "0 1 -1 +1 00 007 1.0 1e3 0x10 59 60 61 64 65 99 100 86399 86400 86401 99999 100000 273599 "
    "273600 359999 360000 999999999 1000000000 2147483647 2147483648 4294967295 4294967296 "
    "9223372036854775807 18446744073709551615 18446744073709551616 ٣ ９ ½"
).split()
TIMES = (
    "0:00:00 00:00:00 8:00:00 08:00:00 23:59:59 24:00:00 25:10:00 47:59:59 75:59:59 76:00:00 "
    "99:59:59 100:00:00 -1:00:00 08:60:00 08:00:60 8:0:0 008:00:00 08:00 080000 08:00:00:00 "
    "08:00:00.5 -00:00:01"
).split()
DATES = (
    "20260301 20260302 20260303 20260307 20260308 20260406 00010101 00000101 99991231 20260229 "
    "20240229 20261301 20260100 2026-3-2 2026030 202603021 19000229 20000229"
).split()
MARKS = [*" \t,\"'#@-=;:/\\%*_", '""', "--"]
ENDS = ["\n", "\r\n", "\r", "\n\n", "\0", "\x1a", "\x7f", "\x85", "\u2028", "\x0b", "\x0c"]
# Parts of JSON.
PARTS = [*"{}[]", '":"', '","', "null", "true", "\\u0041", "\\ud800", "\\n", "{}", "[]", "-0"]
LETTERS = ["\ufeff", "é", "日本", "\U0001f68d", "a\u0301", "\u202e", "A", "B", "D", "T1", "S"]
LONG = ["x" * 1025, "y" * 70_000]
TEXTS = [*NUMBERS, *TIMES, *DATES, *MARKS, *ENDS, *PARTS, *LETTERS, "", *LONG]
NO_TEXTS = [b"\xff", b"\xc3", b"\xed\xa0\x80", b"\xf4\x90\x80\x80"]
TOKENS = [text.encode() for text in TEXTS] + NO_TEXTS
# No text grows beyond this by changes.
MOST_BYTES = 400_000


def token(drawn):
    if drawn.random() < 0.3:
        return bytes([drawn.randrange(256)])
    return drawn.choice(TOKENS)


def place_in(drawn, data):
    return drawn.randrange(len(data) + 1)


def part_of(drawn, data):
    """Two places, mostly near each other."""
    begin = place_in(drawn, data)
    length = drawn.choice((1, 2, 3, 8, 40, len(data)))
    return begin, min(len(data), begin + drawn.randrange(length + 1))


def put_byte(drawn, data):
    """Another byte in place of one."""
    if not data:
        return data
    at = drawn.randrange(len(data))
    return data[:at] + bytes([drawn.randrange(256)]) + data[at + 1 :]


def turn_bit(drawn, data):
    if not data:
        return data
    at = drawn.randrange(len(data))
    return data[:at] + bytes([data[at] ^ 1 << drawn.randrange(8)]) + data[at + 1 :]


def put_in(drawn, data):
    at = place_in(drawn, data)
    return data[:at] + token(drawn) + data[at:]


def put_for(drawn, data):
    begin, end = part_of(drawn, data)
    return data[:begin] + token(drawn) + data[end:]


def take_out(drawn, data):
    begin, end = part_of(drawn, data)
    return data[:begin] + data[end:]


def repeat(drawn, data):
    begin, end = part_of(drawn, data)
    times = drawn.choice((1, 1, 2, 5, 100, 2000))
    return data[:end] + data[begin:end] * times + data[end:]


def cut(drawn, data):
    return data[: place_in(drawn, data)]


def cut_front(drawn, data):
    return data[place_in(drawn, data) :]


def empty(_, data):
    return b""


def draw_bytes(drawn, data):
    return bytes(drawn.randrange(256) for _ in range(drawn.randrange(300)))


def lines_with_crlf(_, data):
    return data.replace(b"\n", b"\r\n")


def lines_with_cr(_, data):
    return data.replace(b"\n", b"\r")


def mark_order(_, data):
    return b"\xef\xbb\xbf" + data


def in_utf_16(_, data):
    return data.decode(errors="replace").encode("utf-16")


BYTES = (
    put_byte,
    put_byte,
    turn_bit,
    put_in,
    put_in,
    put_for,
    take_out,
    repeat,
    cut,
    cut_front,
    empty,
    draw_bytes,
    lines_with_crlf,
    lines_with_cr,
    mark_order,
    in_utf_16,
)


def by_lines(change):
    """A change of a list of lines, as one of bytes."""

    def changed(drawn, data):
        lines = data.split(b"\n")
        ended = not lines[-1]
        lines = lines[:-1] if ended else lines
        return b"\n".join(change(drawn, lines)) + (b"\n" if ended else b"")

    return changed


def double_line(drawn, lines):
    at = place_in(drawn, lines)
    return lines[:at] + lines[at - 1 : at] * drawn.choice((1, 1, 1, 3, 1000)) + lines[at:]


def drop_line(drawn, lines):
    at = place_in(drawn, lines)
    return lines[:at] + lines[at + 1 :]


def shuffle_lines(drawn, lines):
    rows = lines[1:]
    drawn.shuffle(rows)
    return lines[:1] + rows


def turn_lines(drawn, lines):
    return lines[:1] + lines[:0:-1]


def put_empty_line(drawn, lines):
    at = place_in(drawn, lines)
    return lines[:at] + [drawn.choice((b"", b" ", b",,,", b'""', b"\t"))] + lines[at:]


def double_all(drawn, lines):
    return lines + lines[1:] * drawn.choice((1, 2, 10))


def by_fields(change):
    """A change of one line's fields, or of those of all lines, as one of lines."""

    def changed(drawn, lines):
        if not lines:
            return lines
        if drawn.random() < 0.5:
            state = drawn.getrandbits(32)
            again = type(drawn)
            return [b",".join(change(again(state), line.split(b","))) for line in lines]
        at = drawn.randrange(len(lines))
        line = b",".join(change(drawn, lines[at].split(b",")))
        return lines[:at] + [line] + lines[at + 1 :]

    return changed


def swap_fields(drawn, fields):
    fields = list(fields)
    i, j = drawn.randrange(len(fields)), drawn.randrange(len(fields))
    fields[i], fields[j] = fields[j], fields[i]
    return fields


def drop_field(drawn, fields):
    at = drawn.randrange(len(fields))
    return fields[:at] + fields[at + 1 :]


def put_field(drawn, fields):
    at = place_in(drawn, fields)
    return fields[:at] + [token(drawn)] + fields[at:]


def set_field(drawn, fields):
    at = drawn.randrange(len(fields))
    return fields[:at] + [token(drawn)] + fields[at + 1 :]


def quote_field(drawn, fields):
    at = drawn.randrange(len(fields))
    quoted = b'"' + fields[at].replace(b'"', b'""') + b'"'
    return fields[:at] + [quoted] + fields[at + 1 :]


def blank_field(drawn, fields):
    at = drawn.randrange(len(fields))
    return fields[:at] + [b" " + fields[at] + b"\t"] + fields[at + 1 :]


def copy_field(drawn, lines):
    """The field of another line in place of one."""
    if not lines:
        return lines
    i, j = drawn.randrange(len(lines)), drawn.randrange(len(lines))
    there, here = lines[i].split(b","), lines[j].split(b",")
    at = drawn.randrange(len(here))
    here[at] = there[min(at, len(there) - 1)]
    return lines[:j] + [b",".join(here)] + lines[j + 1 :]


def likely_fields(name, fields):
    """What may stand in a column of a name, of which these are fields."""
    if name.endswith(b"_time") and name != b"min_transfer_time":
        return TIMES + [""]
    if name.endswith(b"_date") or name == b"date":
        return DATES
    if name.endswith(b"_type") or name.endswith(b"day"):
        return ["", "0", "1", "2", "3", "4", "5"]
    if name.endswith(b"_sequence") or name.endswith(b"_secs") or name == b"min_transfer_time":
        return NUMBERS + [""]
    return [field.decode(errors="replace") for field in fields] + ["", "nowhere"]


def set_likely_field(drawn, lines):
    """A field of a row that may stand there."""
    if len(lines) < 2:
        return lines
    at = drawn.randrange(1, len(lines))
    fields, names = lines[at].split(b","), lines[0].split(b",")
    place = drawn.randrange(len(fields))
    name = names[min(place, len(names) - 1)].strip(b"\xef\xbb\xbf \r")
    column = [row[place] for row in (line.split(b",") for line in lines[1:]) if len(row) > place]
    fields[place] = drawn.choice(likely_fields(name, column)).encode()
    return lines[:at] + [b",".join(fields)] + lines[at + 1 :]


LINES = (
    double_line,
    drop_line,
    shuffle_lines,
    turn_lines,
    put_empty_line,
    double_all,
    copy_field,
    copy_field,
    *map(by_fields, (swap_fields, drop_field, put_field, quote_field, blank_field)),
    *[by_fields(set_field)] * 4,
)
CHANGES = (*BYTES, *map(by_lines, LINES), *map(by_lines, LINES))


LIKELY = (
    set_likely_field,
    set_likely_field,
    set_likely_field,
    copy_field,
    drop_line,
    double_line,
    shuffle_lines,
    by_fields(quote_field),
)


def changed_a_little(drawn, data):
    """The bytes after a few changes that leave most of a file as it is."""
    for _ in range(drawn.choice((1, 1, 2, 3))):
        data = by_lines(drawn.choice(LIKELY))(drawn, data)[:MOST_BYTES]
    return data


def changed(drawn, data):
    """The bytes after a few changes."""
    for _ in range(drawn.choice((1, 1, 1, 2, 2, 3, 5, 12))):
        data = drawn.choice(CHANGES)(drawn, data)[:MOST_BYTES]
    return data
