"""The manual page renders without a warning and is true of the program; wrong pages are noticed."""

from functools import partial

from harness import each_row, expect_mismatch, expect_same, test
from manual_checks import (
    MANUAL,
    all_runs,
    expect_commands,
    expect_decimals,
    expect_defaults,
    expect_documents,
    expect_files,
    expect_keys,
    expect_kinds,
    expect_limit,
    expect_names,
    expect_numbers,
    expect_page_examples,
    expect_polynomials,
    expect_prints,
    expect_range,
    expect_ranges,
    expect_rendered,
    expect_rules,
    expect_statuses,
    expect_words,
    expect_workers,
)
from manual_page import keys_in
from tracing import traced_test

PAGE = MANUAL.read_text()


@test
def manual_page_is_rendered_without_a_warning():
    expect_rendered(PAGE)


@test
def commands_of_the_manual_page_are_those_of_the_program():
    expect_commands(PAGE)
    expect_words(PAGE)
    expect_names(PAGE)
    expect_numbers(PAGE)


@test
def commands_of_the_manual_page_read_and_print_what_it_says():
    expect_prints(PAGE)


@test
def keys_of_the_manual_page_are_those_of_the_program():
    expect_keys(PAGE)


@test
def ranges_of_the_manual_page_are_those_of_the_program():
    expect_ranges(PAGE)
    expect_polynomials(PAGE)
    expect_decimals(PAGE)
    expect_rules(PAGE)


@test
def defaults_of_the_manual_page_are_those_of_the_program():
    expect_defaults(PAGE)


@traced_test
def workers_of_the_manual_page_are_those_of_the_program():
    expect_workers(PAGE)


@test
def longest_input_of_the_manual_page_is_that_of_the_program():
    expect_limit("bytes of an input", PAGE)


@test
def most_sessions_of_the_manual_page_are_those_of_the_program():
    expect_limit("sessions of a store", PAGE)


@test
def most_places_of_the_manual_page_are_those_of_the_program():
    expect_limit("places of the sessions of a store", PAGE)


@test
def most_chunks_of_the_manual_page_are_those_of_the_program():
    expect_limit("chunks of a store", PAGE)


@test
def statuses_and_notes_of_the_manual_page_are_those_of_the_program():
    runs = all_runs()
    expect_statuses(runs, PAGE)
    expect_kinds(runs, PAGE)


@test
def files_and_examples_of_the_manual_page_are_those_of_the_program():
    expect_files(PAGE)
    expect_documents(PAGE)
    expect_page_examples(PAGE)


# Wrong pages: what is replaced in the page, and by what.


def expect_noticed(check, rows):
    """Expects of each wrong page that a check refuses it."""

    def expect_row(old, new):
        expect_same(f"how often the page has {old!r}", 1, PAGE.count(old))
        expect_mismatch(lambda: check(PAGE.replace(old, new)))

    each_row(rows, expect_row)


WRONG_MACROS = [
    (".It Em What Ta Em Most", ".It Em What Ta Em At most"),
    (".It Pa head\n", ".It Pa head\n.Zz\n"),
    (".Bl -tag -width \"missing\"", ".Bl -tags -width \"missing\""),
    (".Ed\n", ""),
]


@test
def manual_pages_with_wrong_macros_are_noticed():
    expect_noticed(expect_rendered, WRONG_MACROS)


WRONG_COMMANDS = [
    (".It Cm refs\n", ""),
    (".It Cm refs\n", ".It Cm ref\n"),
    (".It Cm refs\n", ".It Cm prune\n.It Cm refs\n"),
    (".Cm drop\n.Ar name\n", ".Cm drop\n"),
    (".Nm\n.Ar store\n.Cm list\n", ""),
]
WRONG_WORDS = [
    (".It Cm drop Ar name\n", ".It Cm drop\n"),
    (".It Cm refs\n", ".It Cm refs Ar name\n"),
    (".It Cm list\n", ".It Cm list Op Ar key Ns = Ns Ar value ...\n"),
    ("Ta 13 Ta Cm init plan", "Ta 13 Ta Cm plan"),
    ("Ta 4 Ta Cm ingest", "Ta 4 Ta Cm init ingest"),
    (".It Li segment", ".It Li segments"),
]
WRONG_NAMES = [("1 to 64 bytes", it) for it in ("0 to 64 bytes", "1 to 63 bytes", "1 to 65 bytes")]
WRONG_NUMBERS = [
    ("from 0 to 18446744073709551615", "from 1 to 18446744073709551615"),
    ("from 0 to 18446744073709551615", "from 0 to 18446744073709551614"),
    ("from 1 to 4096", "from 0 to 4096"),
    ("from 1 to 4096", "from 1 to 4095"),
]
# `bulk` prints a line as this one.
SESSION = "one chunk of the session:\n.Dl Li ingested "
WRONG_LINES = [
    (f"{SESSION}Ar name bytes Li bytes Ar places", f"{SESSION}Ar name places Li bytes Ar bytes"),
    ("Ar number name bytes places", "Ar number name places bytes"),
    ("Ar chunk count length name", "Ar chunk length name"),
    (".Dl Li ready\n", ".Dl Li done\n"),
    (".Dl Ar offset length name\n", ""),
    ("Reads nothing and writes", "Writes"),
    ("Takes standard input in as a session.", "Reads nothing."),
]


@test
def manual_pages_with_wrong_commands_are_noticed():
    expect_noticed(expect_commands, WRONG_COMMANDS)
    expect_noticed(expect_words, WRONG_WORDS)
    expect_noticed(expect_names, WRONG_NAMES)
    expect_noticed(expect_numbers, WRONG_NUMBERS)
    expect_noticed(expect_prints, WRONG_LINES)


def cells(key, *rows):
    """Replaces the cells of a key, as `least most default`, by each of the rows."""
    row = keys_in(PAGE)[key]
    old = f"Li {key} Ta {row.least} Ta {row.most} Ta {row.default} Ta"
    return [(old, f"Li {key} Ta {' Ta '.join(it.split())} Ta") for it in rows]


LOWER = "3da3358b4dc171"
WRONG_RANGES = {
    "polynomial": [
        "10003 ffffffffffffffff 10003",
        "ffff ffffffffffffffff ffff",
        f"10001 fffffffffffffffd {LOWER}",
        f"10001 1ffffffffffffffff {LOWER}",
    ],
    "bits": ["0 16 13", "2 16 13", "1 15 13", "1 17 13"],
    "target": ["1 65535 120", "0 65534 120", "0 65536 120"],
    "min": ["47 1048576 2048", "49 1048576 2048", "48 1048575 2048", "48 1048577 2048"],
    "max": ["47 1048576 65536", "49 1048576 65536", "48 1048575 65536", "48 1048577 65536"],
    "workers": ["0 64 4", "2 64 4", "1 63 4", "1 65 4", "1 64 65"],
    "segment": ["0 268435456 65536", "1 268435455 65536", "1 268435457 65536"],
    "shards": ["0 256 16", "2 256 16", "1 255 16", "1 257 16", "1 256 257"],
}
WRONG_POLYNOMIALS = [
    ("at most 16 digits", "at most 15 digits"),
    ("at most 16 digits", "at most 17 digits"),
    ("bit at 16 to", "bit at 15 to"),
    ("bit at 16 to", "bit at 17 to"),
    ("to 63, and", "to 62, and"),
    ("to 63, and", "to 64, and"),
]
WRONG_DECIMALS = [
    ("to the power 32", "to the power 31"),
    ("to the power 32", "to the power 33"),
    ("last 48 bytes", "last 64 bytes"),
]
WRONG_RULES = [
    ("its lowest bit is 1", "its lowest bit is 0"),
    ("is below 2 to the power\n", "is at most 2 to the power\n"),
    ("is at least\n", "is above\n"),
]
WRONG_DEFAULTS = [
    *cells("polynomial", f"10001 ffffffffffffffff {LOWER}"),
    *cells("bits", "1 16 12", "1 16 14"),
    *cells("target", "0 65535 119", "0 65535 121"),
    *cells("min", "48 1048576 2047", "48 1048576 2049"),
    *cells("max", "48 1048576 65535", "48 1048576 65537"),
]
WRONG_SHARES = [
    *cells("workers", "1 64 3", "1 64 5"),
    *cells("segment", "1 268435456 65535", "1 268435456 65537"),
]


def without_row(key):
    row = keys_in(PAGE)[key]
    cells = [key, row.least, row.most, row.default, f"Cm {' '.join(row.commands)}"]
    return (f".It Li {' Ta '.join(cells)}\n", "")


WRONG_KEYS = [*map(without_row, ("polynomial", "max", "shards")), (".It Li bits Ta", ".It Li bit Ta")]


@test
def manual_pages_with_wrong_keys_are_noticed():
    expect_noticed(expect_keys, WRONG_KEYS)


@test
def manual_pages_with_wrong_ranges_and_defaults_are_noticed():
    for key, rows in WRONG_RANGES.items():
        expect_noticed(partial(expect_range, key), cells(key, *rows))
    expect_noticed(expect_polynomials, WRONG_POLYNOMIALS)
    expect_noticed(expect_decimals, WRONG_DECIMALS)
    expect_noticed(expect_rules, WRONG_RULES)
    expect_noticed(expect_defaults, WRONG_DEFAULTS)


@traced_test
def manual_pages_with_wrong_workers_are_noticed():
    expect_noticed(expect_workers, WRONG_SHARES)


WRONG_LIMITS = [
    ("sessions of a store Ta 4096", "sessions of a store Ta 4095"),
    ("sessions of a store Ta 4096", "sessions of a store Ta 4097"),
    (".It chunks of a store Ta 4194304\n", ""),
]
WRONG_STATUSES = [
    (".It 9 Li", ".It Li"),
    (".It 9 Li too many Ar what\n", ""),
    (".It 8 Li input", ".It 15 Li input"),
    (".It 13 Li out of memory\n", ".It 13 Li out of memory\n.It 15 Li out of time\n"),
    ("Li store already there", "Li store there"),
    ("Li bad words at Ar place :", "Li bad word at Ar place :"),
    ("Li damaged Ar what", "Li broken Ar what"),
]
WRONG_KINDS = [
    (".It Li twice\n", ""),
    (".It Li twice\n", ".It Li double\n"),
    (".It Li number\n", ""),
    (".It Li twice\n", ".It Li number\n.It Li twice\n"),
    (".It Li damaged head\n", ""),
    ("recipe Ar session place", "recipe Ar place"),
    ("Li needs Ar needed Li has Ar found", "Li has Ar found Li needs Ar needed"),
]


@test
def manual_pages_with_wrong_limits_and_statuses_are_noticed():
    expect_noticed(partial(expect_limit, "sessions of a store"), WRONG_LIMITS)
    runs = all_runs()
    expect_noticed(partial(expect_statuses, runs), WRONG_STATUSES)
    expect_noticed(partial(expect_kinds, runs), WRONG_KINDS)


WRONG_FILES = [(".It Pa seal.G\n", it) for it in ("", ".It Pa seals.G\n", ".It Pa seal\n")]
WRONG_PATHS = [("docs/COMMANDS.md", "docs/COMMAND.md")]
WRONG_EXAMPLES = [
    ("11752 bytes are", "11753 bytes are"),
    ("ingested tuesday 108902 bytes 12 places 1 new\n", ""),
]


@test
def manual_pages_with_wrong_files_and_examples_are_noticed():
    expect_noticed(expect_files, WRONG_FILES)
    expect_noticed(expect_documents, WRONG_PATHS)
    expect_noticed(expect_page_examples, WRONG_EXAMPLES)
