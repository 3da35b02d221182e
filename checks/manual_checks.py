"""Expects of a manual page that it is rendered without a warning and is true of the program.

Each check takes the text of a page, so that wrong pages can be tried as well.
"""

import os
import re
import shutil
import struct
import subprocess
import tempfile
from itertools import chain
from pathlib import Path

from examples import expect_examples
from folders import FOLDER, TEXT
from full_stores import containers_of_zeros, empty_sessions, record_of_zeros, write_book
from harness import (
    PROGRAM,
    STATUSES,
    STORE,
    Mismatch,
    NotTried,
    closing,
    expect,
    expect_refusal,
    expect_same,
    file_of,
    fresh_room,
    position_of,
    run,
)
from made_stores import FLAWED
from manual_page import (
    commands_in,
    damages_in,
    examples_part,
    files_in_page,
    keys_in,
    kinds_in,
    limits_in,
    section_of,
    statuses_in,
    synopsis_in,
)
from pipes import with_memory
from reference_store import Ingest, files_in, spelling_of, twice, write_files

ROOT = Path(__file__).resolve().parent.parent
MANUAL = ROOT / "docs/backup.1"

ABSENT = "absent"
# What stands for a word of a command, by the name that the page gives it.
WORDS = {"name": "a", "seed": "7", "blocks": "4"}


def rest_of(page, title):
    """A section without its macros, as one line."""
    lines = (re.sub(r"^\.[A-Z][a-z0-9]+ ", "", it) for it in section_of(page, title))
    return " ".join(lines)


# How the page is rendered.


def warnings_of(page):
    """What the renderers that are here say of a page, or None if there is none."""
    renderers = [
        ["mandoc", "-T", "lint", "-W", "warning"],
        ["groff", "-mdoc", "-ww", "-z"],
        ["man", "--warnings", "-l"],
    ]
    words = next((it for it in renderers if shutil.which(it[0])), None)
    if words is None:
        return None
    with tempfile.TemporaryDirectory() as folder:
        path = Path(folder, "backup.1")
        path.write_text(page)
        came = subprocess.run([*words, path], stdin=subprocess.DEVNULL, capture_output=True)
    notes = came.stderr if words[0] != "mandoc" else came.stdout + came.stderr
    return notes.decode() or ("" if came.returncode == 0 else f"status {came.returncode}")


def expect_rendered(page):
    if (warnings := warnings_of(page)) is None:
        raise NotTried("neither mandoc nor groff nor man is on the PATH")
    expect_same("warnings", "", warnings)


# Commands and their words.


def candidates(page):
    """Words that may be commands: those of the page, and each word in the code between quotes."""
    code = (it.read_text() for it in ROOT.glob("crates/*/src/*.rt"))
    found = {*chain.from_iterable(re.findall(r'"([a-z]+)"', it) for it in code)}
    return sorted({*found, *commands_in(page), "check", "help", "prune", "verify"})


def is_command(word):
    """Whether the program takes a word as a command. The word after it is refused in any case."""
    came = run([STORE, word, "="])
    return came.notes != b"backup: bad words at 0: command\n"


def expect_commands(page):
    wanted = [it for it in candidates(page) if is_command(it)]
    expect_same("the commands", wanted, sorted(commands_in(page)))
    shown = [(name, it.words, it.has_keys) for name, it in commands_in(page).items()]
    expect_same("the synopsis", shown, synopsis_in(page))


def words_of(page, name):
    """A command with its words."""
    return [name, *(WORDS.get(it, "a") for it in commands_in(page)[name].words)]


def expect_bad_word(words, place, kind):
    expect_refusal(run([ABSENT, *words]), f"bad words at {place}: {kind}")


def expect_words(page):
    for name, command in commands_in(page).items():
        words = words_of(page, name)
        for count in range(1, len(words)):
            expect_bad_word(words[:count], count, "missing")
        expect_bad_word([*words, "x"], len(words), "key")
        keys = {key for key, it in keys_in(page).items() if name in it.commands}
        expect_same(f"whether {name} has keys", command.has_keys, bool(keys))
        for key, it in keys_in(page).items():
            given = [*words, f"{key}={it.default}", "x"]
            expect_bad_word(given, len(words) + (key in keys), "key")


def expect_numbers(page):
    text = rest_of(page, "DESCRIPTION")
    seeds, blocks = r"a decimal number from (\d+) to (\d+)", r"one from (\d+) to (\d+)"
    found = re.search(f"seed is {seeds}, and blocks {blocks},", text)
    if found is None:
        raise Mismatch("wanted which numbers bulk takes, came none")
    least_seed, most_seed, least, most = map(int, found.groups())
    for words in (["bulk", f"{least_seed}", f"{least}"], ["bulk", f"{most_seed}", f"{most}"]):
        expect_refusal(run([ABSENT, *words]), "no store")
    for number in (least_seed - 1, most_seed + 1):
        expect_bad_word(["bulk", f"{number}", f"{least}"], 1, "number")
    for number in (least - 1, most + 1):
        expect_bad_word(["bulk", "7", f"{number}"], 2, "number")


def expect_names(page):
    found = re.search(r"has (\d+) to (\d+) bytes: ASCII letters", rest_of(page, "DESCRIPTION"))
    if found is None:
        raise Mismatch("wanted how long a name is, came none")
    least, most = map(int, found.groups())
    for length in (least, most):
        expect_refusal(run([ABSENT, "restore", "a" * length]), "no store")
    for length in (least - 1, most + 1):
        expect_bad_word(["restore", "a" * length], 1, "name")


# What they read and print. Over `twice`, each value of a last line is another one.

PRINTED = {
    "init": {},
    "ingest": {"name": "n", "bytes": "214", "places": "2", "new": "1"},
    "bulk": {"name": "bulk.7.4", "bytes": "262144", "places": "1033", "new": "862"},
    "list": {"number": "1", "name": "b", "bytes": "200", "places": "4"},
    "restore": {},
    "drop": {"name": "a", "places": "4"},
    "refs": {"chunk": "1", "count": "2", "length": "8"},
    "audit": {"live": "2", "ingested": "2", "chunks": "2", "containers": "1"},
    "plan": {"offset": "0", "length": "214"},
}


def last_line_of(name):
    """The last line of a command, and how many bytes of its input it reads."""
    write_files(FOLDER, {} if name == "init" else twice())
    given = {"ingest": ["n"], "bulk": ["7", "4"], "restore": ["a"], "drop": ["a"]}
    words = [name, *given.get(name, [])]
    with file_of(TEXT) as source:
        came = run([FOLDER, *words], source, changes=FOLDER)
        expect_same(f"the status of {name}", 0, came.status)
        return came.output.decode("latin-1").splitlines()[-1], position_of(source)


def expect_prints(page):
    for name, command in commands_in(page).items():
        line, read = last_line_of(name)
        expect_same(f"what {name} reads", 0 if command.reads_nothing else len(TEXT), read)
        if name == "restore":
            expect_same("lines of restore", [], command.prints)
            continue
        # The name of a chunk is the last word of its line.
        values = {"name": line.split()[-1], **PRINTED[name]}
        expect_same(f"the line of {name}", [line], [it.filled(values) for it in command.prints])


# Keys.

# Keys that give each value its widest range, by the columns that have their values.
BESIDE = {
    "bits": [("target", "least")],
    "target": [("bits", "most")],
    "min": [("max", "most")],
    "max": [("min", "least")],
}
HOW = ("workers", "segment", "shards")


def number_of(key, word):
    return int(word, 16 if key == "polynomial" else 10)


def spelled(key, number):
    return f"{number:x}" if key == "polynomial" else str(number)


def run_with_key(page, command, key, number):
    """Runs a command with a number for a key, beside what gives it the widest range."""
    keys = keys_in(page)
    beside = [f"{it}={getattr(keys[it], column)}" for it, column in BESIDE.get(key, [])]
    words = [ABSENT, *words_of(page, command), *beside, f"{key}={spelled(key, number)}"]
    return run(words), len(words) - 2


def is_key(words, word):
    """Whether a command takes a word as a key. A value that is empty is refused in any case."""
    came = run([ABSENT, *words, f"{word}="])
    return came.notes == f"backup: bad words at {len(words)}: value\n".encode()


def expect_keys(page):
    words = sorted({*candidates(page), *keys_in(page), "batch", "seed"})
    for name in (name for name, it in commands_in(page).items() if it.has_keys):
        wanted = [it for it in words if is_key(words_of(page, name), it)]
        shown = [key for key, it in keys_in(page).items() if name in it.commands]
        expect_same(f"the keys of {name}", wanted, sorted(shown))


def expect_taken(page, command, key, number):
    """Expects that no word is refused. The store is absent, so nothing else comes of it."""
    came, _ = run_with_key(page, command, key, number)
    if came.status in (STATUSES["bad words at "], STATUSES["bad parameter: "]):
        raise Mismatch(f"wanted {key}={spelled(key, number)} to be taken, came {came.notes}")


def expect_not_taken(page, command, key, number):
    if number < 0:
        return
    came, place = run_with_key(page, command, key, number)
    is_word = key in HOW or number >= 2 ** (64 if key == "polynomial" else 32)
    # The largest minimum is the largest maximum.
    kind = "max" if key == "min" and number > int(keys_in(page)["max"].most) else key
    expect_refusal(came, f"bad words at {place}: value" if is_word else f"bad parameter: {kind}")


def expect_range(key, page):
    row = keys_in(page)[key]
    least, most = number_of(key, row.least), number_of(key, row.most)
    for command in row.commands:
        for number in (least, number_of(key, row.default), most):
            expect_taken(page, command, key, number)
        for number in (least - 2, least - 1, most + 1, most + 2):
            expect_not_taken(page, command, key, number)


def expect_ranges(page):
    for key in keys_in(page):
        expect_range(key, page)


def number_after(words, page, title):
    if (found := re.search(rf"{words} (\d+)\b", rest_of(page, title))) is None:
        raise Mismatch(f"wanted a number after {words!r}, came none")
    return int(found.group(1))


def expect_polynomials(page):
    """Expects what the page says of the digits of a polynomial and of its highest bit."""
    plan, key = [ABSENT, "plan"], "polynomial"
    digits = number_after("no prefix and at most", page, "Keys")
    longest = "10001".rjust(digits, "0")
    lowest = number_after("its highest set bit at", page, "Keys")
    highest = number_after(f"its highest set bit at {lowest} to", page, "Keys")
    for value in (longest, f"{2**lowest + 1:x}", f"{2**highest + 1:x}"):
        expect(run([*plan, f"{key}={value}"]))
    for value in (f"0{longest}", f"{2 ** (highest + 1) + 1:x}"):
        expect_refusal(run([*plan, f"{key}={value}"]), "bad words at 1: value")
    below = f"{2 ** (lowest - 1) + 1:x}"
    expect_refusal(run([*plan, f"{key}={below}"]), f"bad parameter: {key}")


def expect_decimals(page):
    """Expects what the page says of the digits of the other values, and of the window."""
    plan = [ABSENT, "plan"]
    power = number_after("no leading zeros and below 2 to the power", page, "Keys")
    expect_refusal(run([*plan, f"max={2**power - 1}"]), "bad parameter: max")
    for value in (f"{2**power}", "02048"):
        expect_refusal(run([*plan, f"max={value}"]), "bad words at 1: value")
    # The least minimum is the length of the window.
    window = number_after("Rabin fingerprint of the last", page, "Keys")
    expect_same("the window", keys_in(page)["min"].least, str(window))


def expect_rules(page):
    """Expects what the page says of values beside one another."""
    text = rest_of(page, "Keys")
    for rule in ("its lowest bit is 1", "below 2 to the power bits", "max is at least min"):
        if rule not in re.sub(r" ,", "", text):
            raise Mismatch(f"wanted that the page says {rule!r}")
    plan = [ABSENT, "plan"]
    expect_refusal(run([*plan, "polynomial=10002"]), "bad parameter: polynomial")
    for bits in range(1, 17):
        expect(run([*plan, f"bits={bits}", f"target={2**bits - 1}"]))
        given = [*plan, f"bits={bits}", f"target={2**bits}"]
        expect_refusal(run(given), "bad parameter: target")
    for least in (48, 5000, 2**20):
        expect(run([*plan, f"min={least}", f"max={least}"]))
        expect_refusal(run([*plan, f"min={least}", f"max={least - 1}"]), "bad parameter: max")


def head_of(keys):
    write_files(FOLDER, {})
    expect(run([FOLDER, "init", *keys], changes=FOLDER), output=b"ready\n")
    return files_in(FOLDER)["head"]


def expect_defaults(page):
    keys = keys_in(page)
    defaults = [f"{key}={it.default}" for key, it in keys.items() if "init" in it.commands]
    expect_same("the head of a store without keys", head_of(defaults), head_of([]))
    # Some chunks end at a candidate, and some at the maximum.
    text = Path(PROGRAM).read_bytes() + bytes(100_000)
    every = [f"{key}={it.default}" for key, it in keys.items() if "plan" in it.commands]
    expect(run([ABSENT, "plan"], text), output=run([ABSENT, "plan", *every], text).output)


def maps_of(words, length):
    """How many maps of candidates a run makes. Each worker that scans has one, of a bit a byte."""
    setting = {"MALLOC_MMAP_THRESHOLD_": str(length // 16), **os.environ}
    command = ["strace", "-f", "-o", "trace", "-e", "trace=mmap", PROGRAM, ABSENT, "plan", *words]
    with tempfile.TemporaryFile() as source:
        source.truncate(length)
        subprocess.run(command, stdin=source, capture_output=True, env=setting)
    sizes = re.findall(r"mmap\(NULL, (\d+), PROT_READ\|PROT_WRITE,", Path("trace").read_text())
    return sum(0 <= int(it) - length // 8 <= 8192 for it in sizes)


def expect_workers(page):
    """Expects the defaults that change nothing but how the work is shared."""
    keys = keys_in(page)
    workers, segment = int(keys["workers"].default), int(keys["segment"].default)
    expect_same("workers that scan", workers, maps_of([], 3 * 2**20))
    for more in (0, 1):
        maps = maps_of(["workers=64"], 48 * segment + more)
        expect_same("segments that are scanned", 48 + more, maps)


# Limits. Each is reached, and passed by one.


def expect_longest_input(most):
    with tempfile.TemporaryFile() as zeros:
        zeros.truncate(most + 1)
        expect_refusal(run([ABSENT, "plan"], zeros), "input too long")
        zeros.truncate(most)
        zeros.seek(0)
        expect_same("the status of the longest input", 0, run([ABSENT, "plan"], zeros).status)


def expect_full(note):
    expect_refusal(run([FOLDER, "ingest", "x"], b"abcd", changes=FOLDER), note)


def expect_most_sessions(most):
    write_book(empty_sessions(most), {})
    expect_full("too many sessions")


def expect_most_places(most):
    write_book([record_of_zeros(b"p", 1, most, bytes(4 * most))], containers_of_zeros(1))
    expect_full("too many places")


def expect_most_chunks(most):
    record = record_of_zeros(b"c", most, most, struct.pack(f">{most}I", *range(most)))
    write_book([record], containers_of_zeros(most))
    expect_full("too many chunks")


LIMITS = {
    "bytes of an input": expect_longest_input,
    "sessions of a store": expect_most_sessions,
    "places of the sessions of a store": expect_most_places,
    "chunks of a store": expect_most_chunks,
}


def expect_limit(what, page):
    expect_same("the limits", sorted(LIMITS), sorted(limits_in(page)))
    LIMITS[what](limits_in(page)[what])


# Statuses and notes.


def bad_word_runs():
    values = [["plan", "min=48", "min=48"], ["plan", "min=x"]]
    words = [[], ["x"], ["drop", ".a"], ["bulk", "07"], ["list", "a"], *values]
    return [run([FOLDER, *it]) for it in words]


def damaged(files, words=("list",)):
    write_files(FOLDER, twice() | files)
    return run([FOLDER, *words])


def damage_runs():
    """A run for each kind of damage."""
    files = twice()
    recipe = spelling_of(Ingest(b"a", 8, [], [5]))
    container = files["container.0.0"]
    yield damaged({"head": b"X" + files["head"][1:]})
    yield damaged({"book.0": b"X" + files["book.0"][1:]})
    yield damaged({"book.0": recipe, "seal.0": b"S"})
    yield damaged({"container.0.0": container[:-1]})
    yield damaged({"container.0.0": container[:-1] + b"x"}, ["restore", "a"])
    yield damaged({"container.0.0": b"X" + container[1:]}, ["audit"])
    flaws = ["two equal chunks", "a chunk that comes too early", "a chunk with a candidate in it"]
    for flaw in flaws:
        yield damaged(FLAWED[flaw][0], ["audit"])


def store_runs():
    """Runs that are done or refused by what is in a store."""
    write_files(FOLDER, twice())
    yield run([FOLDER, "list"])
    yield run([FOLDER, "init"])
    yield run([FOLDER, "ingest", "a"])
    yield run([FOLDER, "drop", "c"])
    write_book(empty_sessions(4096), {})
    yield run([FOLDER, "ingest", "x"])


def plan_runs():
    """Runs that fail by their streams, their memory or a number."""
    plan = [ABSENT, "plan"]
    with tempfile.TemporaryFile() as zeros, open("/dev/full", "wb") as full:
        zeros.truncate(2**28 + 1)
        yield run(plan, zeros)
        yield run(plan, starter=closing("<&"))
        yield run(plan, b"abc", full)
        zeros.truncate(2**28)
        zeros.seek(0)
        yield run(plan, zeros, starter=with_memory(100_000))
    yield run([*plan, "bits=17"])


def all_runs():
    """Runs with every status, and with every kind of bad words and of damage."""
    absent = [run([ABSENT, "list"]), run([ABSENT, "init"])]
    return [*absent, *bad_word_runs(), *damage_runs(), *store_runs(), *plan_runs()]


def note_of(came):
    note = came.notes.decode().removesuffix("\n")
    if came.status and not note.startswith("backup: "):
        raise Mismatch(f"wanted a note, came {note!r}")
    return note.removeprefix("backup: ")


def expect_statuses(runs, page):
    shown = statuses_in(page)
    expect_same("the statuses", sorted({it.status for it in runs}), sorted(shown))
    for came in runs:
        if came.status and came.status != STATUSES["damaged "]:
            pattern = shown[came.status]
            if not pattern.matches(note_of(came)):
                raise Mismatch(f"status {came.status}: the page has no {note_of(came)!r}")
    if not shown[STATUSES["damaged "]].matches("damaged head"):
        raise Mismatch("status 7: wanted what all notes of damage begin with")


def expect_kinds(runs, page):
    notes = [note_of(it) for it in runs]
    kinds = [it.split()[-1] for it in notes if it.startswith("bad words at ")]
    expect_same("the kinds of bad words", kinds, kinds_in(page))
    damages = [it for it in notes if it.startswith("damaged ")]
    patterns = damages_in(page)
    expect_same("the number of kinds of damage", len(damages), len(patterns))
    for note, pattern in zip(damages, patterns):
        if not pattern.matches(note):
            raise Mismatch(f"the page has {pattern.filled({})!r} in place of {note!r}")


# Files and examples.


def expect_files(page):
    write_files(FOLDER, {})
    run([FOLDER, "init"], changes=FOLDER)
    run([FOLDER, "ingest", "a"], b"abc", changes=FOLDER)
    names = [re.sub(r"\.[GK]\b", ".0", it) for it in files_in_page(page)]
    expect_same("the files", sorted(files_in(FOLDER)), sorted(names))


def expect_documents(page):
    for name in re.findall(r"docs/\S+", "\n".join(section_of(page, "SEE ALSO"))):
        expect_same(f"whether {name} is there", True, (ROOT / name).is_file())


def expect_page_examples(page):
    with fresh_room():
        expect_examples(examples_part(page))
