"""Whether an answer with `--lenient`, one without it and a check of the feed agree."""
from said import checks
from said import words as command_lines
from said.answers import FEED_REFUSED


def words_beside(words):
    """For the words of a lenient answer over a day those of a check of the feed, and the same words
    without the option; or None for other words.
    """
    if not command_lines.are_valid(words):
        return None
    options, rest = command_lines.parted([word.decode() for word in words])
    if "--lenient" not in options or rest[0] not in checks.OF_A_DAY:
        return None
    del options["--lenient"]
    given = [name if it is None else f"{name}={it}" for name, it in options.items()]
    found = ([*given, "--", *behind] for behind in (["check", *rest[1:3]], rest))
    return [[word.encode() for word in line] for line in found]


def disagreement(lenient, check, strict):
    """What is wrong with three such runs beside each other, or None."""
    if check.status not in (0, 10):
        return None if lenient.status == check.status else f"a check ends with {check.status}"
    told = checks.told_in(check.out)
    if told is None:
        # a name with a line feed, or a form that a case of its own shows to be wrong
        return None
    if not told:
        return None if lenient.said() == strict.said() else "--lenient changes what comes"
    if strict.status != 3:
        return f"a check tells faults, and without --lenient the status is {strict.status}"
    last = told[-1]
    if not checks.is_borne(last):
        right = lenient.status == 3 and lenient.err == f"{FEED_REFUSED}{last}\n"
        return None if right else f"a check ends with {last}, and --lenient with {lenient.err}"
    if lenient.status == 3:
        return f"a check tells no fault that ends it, and --lenient ends with {lenient.err}"
    line = checks.left_out(told)
    if lenient.status == 0 and len(told) < checks.MOST_TOLD and lenient.err != line:
        return f"a check tells of {line}, and --lenient of {lenient.err}"
    return None
