"""What the program is made of, and whether the built one is of the sources as they are."""
import contextlib
import hashlib
import os
import shutil
import subprocess
import time

PROGRAM = "router"
# What a proof reads of a crate.
PROVED_PARTS = ("src", "specs", "proofs")
# What a program is run on in `rt ci`, and what it has to give.
RUN_PARTS = ("args", "stdin", "stdout", "status", "data")


def read_crates(top):
    """The libraries of each crate that crates.txt names, in its order, in which each crate stands
    below those that stand on it.
    """
    libraries = {}
    with open(os.path.join(top, "crates.txt"), encoding="utf-8") as file:
        for line in file:
            head, colon, names = line.partition("#")[0].partition(":")
            if colon:
                libraries[head.split()[0]] = names.split()
    return libraries


def crates_below(name, libraries):
    """A crate and the crates of the repository that it stands on, in the order of crates.txt."""
    found, open_names = set(), [name]
    while open_names:
        crate = open_names.pop()
        if crate in libraries and crate not in found:
            found.add(crate)
            open_names += libraries[crate]
    return [crate for crate in libraries if crate in found]


def files_below(folder):
    """The paths of all files of a folder, relative to it, sorted."""
    for at, folders, names in os.walk(folder):
        folders.sort()
        for name in sorted(names):
            yield os.path.relpath(os.path.join(at, name), folder)


def line_count(crate, ending):
    """The lines of the proved files of a crate whose names end so (or in one of several ways)."""
    count = 0
    for part in PROVED_PARTS:
        for file in files_below(os.path.join(crate, part)):
            if file.endswith(ending):
                with open(os.path.join(crate, part, file), "rb") as it:
                    count += it.read().count(b"\n")
    return count


def sum_of_sources(top):
    """A checksum of all that the proof of the program reads of the repository."""
    libraries = read_crates(top)
    names = crates_below(PROGRAM, libraries)
    total = hashlib.sha256(repr([(name, libraries[name]) for name in names]).encode())
    parts = [os.path.join("crates", name, part) for name in names for part in PROVED_PARTS]
    files = [os.path.join(it, file) for it in parts for file in files_below(os.path.join(top, it))]
    for path in ["HANDLES", *files]:
        with contextlib.suppress(FileNotFoundError), open(os.path.join(top, path), "rb") as file:
            total.update(f"\n{path} {hashlib.sha256(file.read()).hexdigest()}".encode())
    return total.hexdigest()


def copy_sources(top, to):
    """Makes a folder with what the proof and the run of the program read of the repository."""
    names = crates_below(PROGRAM, read_crates(top))
    parts = [os.path.join("crates", name, it) for name in names for it in PROVED_PARTS + RUN_PARTS]
    os.makedirs(to)
    for path in ["HANDLES", *parts]:
        one, other = os.path.join(top, path), os.path.join(to, path)
        if os.path.isdir(one):
            shutil.copytree(one, other, copy_function=shutil.copyfile)
        elif os.path.isfile(one):
            os.makedirs(os.path.dirname(other), exist_ok=True)
            shutil.copyfile(one, other)
    with open(os.path.join(top, "crates.txt"), encoding="utf-8") as file:
        lines = [line for line in file if {*line.partition(":")[0].split()[:1]} & {*names}]
    write_whole(os.path.join(to, "crates.txt"), "".join(lines))


def built_program(top):
    return os.path.join(top, "crates", PROGRAM, "out", PROGRAM)


def stamp_file(top):
    return built_program(top) + ".built"


def is_current(top):
    """Whether the stamp is the built program's and has the sum of the sources as they are now."""
    program, stamp, now = built_program(top), stamp_file(top), time.time()
    try:
        if os.stat(stamp).st_mtime_ns < os.stat(program).st_mtime_ns:
            return False
        with open(stamp, encoding="utf-8") as file:
            words = dict(line.split(maxsplit=1) for line in file)
    except (OSError, ValueError):
        return False
    if words.get("sources", "").strip() != sum_of_sources(top):
        return False
    # so that the launcher needs no sum next time
    with contextlib.suppress(OSError):
        date_stamp(stamp, now)
    return True


def date_stamp(stamp, now):
    """Has a stamp say that it was true at a time, less what a file's time may be behind."""
    os.utime(stamp, (now - 1, now - 1))


def remove_stamp(top, begun):
    """Has the built program count as older than what changed in the sources since a time."""
    with contextlib.suppress(FileNotFoundError):
        os.remove(stamp_file(top))
    os.utime(built_program(top), (begun - 2, begun - 2))


def write_stamp(top, commit, total, begun):
    """Says what the built program is made of, by a stamp of the time at which the sources had that
    sum: one of them may have changed since.
    """
    remove_stamp(top, begun)
    write_whole(stamp_file(top), f"commit {commit}\nsources {total}\n")
    date_stamp(stamp_file(top), begun)


def take_program(copy, top):
    """Has the program that was built in a copy of the sources stand where that of these would."""
    to = built_program(top)
    os.makedirs(os.path.dirname(to), exist_ok=True)
    shutil.copyfile(built_program(copy), f"{to}.new")
    os.chmod(f"{to}.new", 0o755)
    os.replace(f"{to}.new", to)


def write_whole(path, text):
    """Writes a file so that nobody meets half of it."""
    with open(f"{path}.new", "w", encoding="utf-8") as file:
        file.write(text)
    os.replace(f"{path}.new", path)


def git_folder(top):
    """The folder in which git keeps the state of the checkout, or None."""
    git = os.path.join(top, ".git")
    if os.path.isfile(git):
        # (that of a worktree names it)
        with open(git, encoding="utf-8") as file:
            git = os.path.join(top, file.read().partition("gitdir:")[2].strip())
    return git if os.path.isdir(git) else None


def commit_of(top):
    """The commit of the checkout, with `-dirty` where files differ from it."""
    words = ["git", "-C", top, "describe", "--always", "--dirty", "--abbrev=12", "--exclude=*"]
    try:
        run = subprocess.run(words, capture_output=True, text=True)
    except OSError:
        return "unknown"
    return run.stdout.strip() or "unknown"
