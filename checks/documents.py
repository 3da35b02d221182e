"""What the documents show is what the program does: their examples, statuses, notes and keys."""

import os
import re
import shlex
from pathlib import Path

from examples import PROMPT, Example, examples_in, expect_examples, shown_by
from folders import expect_files
from harness import (
    STATUSES,
    STORE,
    Mismatch,
    each_row,
    expect_early_refusal,
    expect_mismatch,
    expect_same,
    test,
)
from reference import DEFAULTS
from reference_store import files_in, twice

ROOT = Path(__file__).resolve().parent.parent
COMMANDS = ROOT / "docs/COMMANDS.md"
STORE_FORMAT = ROOT / "docs/STORE_FORMAT.md"
README = ROOT / "README.md"


@test
def examples_of_the_commands_come_out():
    expect_examples(COMMANDS.read_text())


@test
def examples_of_the_readme_come_out():
    expect_examples(README.read_text())


WRONG_EXAMPLES = [
    ("mkdir s; backup s init", ""),
    ("mkdir s; backup s init; backup s list", "ready\n0 a 3 1\n"),
    ("backup s restore a; echo $?", "backup: no store\n4\n"),
    ("printf abc | backup s plan", "0 3 ba7816bf8f01cfea\n"),
    ("printf abc | backup s plan", ""),
    ("backup s plan </dev/null", "\n"),
    ("backup s plan bits=17", ""),
    ("backup s plan bits=17", "backup: bad parameter: bit\n"),
    ("backup s; echo $?", "backup: bad words at 0: missing\n3\n"),
]


@test
def examples_with_wrong_output_are_noticed():
    def expect_row(command, output):
        text = f"```\n{PROMPT}{command}\n{output}```\n"
        expect_same("the examples", [Example(f"{command}\n", output)], examples_in(text))
        expect_mismatch(lambda: expect_examples(text))

    each_row(WRONG_EXAMPLES, expect_row)


def rows_of_tables(path):
    """The cells of each row of each table of a document, as words without their quotes."""
    lines = (it for it in path.read_text().splitlines() if it.startswith("|"))
    return [[cell.strip().strip("`") for cell in line.strip("|").split("|")] for line in lines]


NOTE = re.compile(r"bad words at [0-9]+: [a-z]+|bad parameter: [a-z]+")


@test
def words_in_the_table_of_notes_are_refused_with_them():
    rows = 0
    for words, *cells in rows_of_tables(COMMANDS):
        for note in filter(NOTE.fullmatch, cells):
            given = [] if words == "none" else shlex.split(words)
            expect_early_refusal([STORE, *given], note)
            rows += 1
    if not rows:
        raise Mismatch("wanted a table of words and notes, came none")


@test
def table_of_statuses_has_each_status_with_its_note():
    rows = [row for row in rows_of_tables(COMMANDS) if row[0].isdecimal()]
    shown = {int(status): note for status, note, *_ in rows}
    wanted = {status: start for start, status in STATUSES.items()}
    expect_same("the statuses", sorted([0, *wanted]), sorted(shown))
    for status, start in wanted.items():
        expect_same(f"the note of status {status}", start, shown[status][: len(start)])


@test
def table_of_keys_has_the_defaults():
    rows = rows_of_tables(COMMANDS)
    for key, number in vars(DEFAULTS).items():
        default = f"{number:x}" if key == "polynomial" else str(number)
        if not any(row[0] == key and default in row for row in rows):
            raise Mismatch(f"wanted a row of {key} with {default}, came none")


# A file in hexadecimal: its name and size, and lines of at most 16 bytes, each with a remark.
SHOWN_FILE = re.compile(r"^`(\S+)`, (\d+) bytes:\n\n```\n(.*?)^```$", re.MULTILINE | re.DOTALL)
COLUMNS_OF_BYTES = 3 * 16 - 1


def files_shown_in(text):
    files = {}
    for name, size, lines in SHOWN_FILE.findall(text):
        content = b"".join(bytes.fromhex(it[:COLUMNS_OF_BYTES]) for it in lines.splitlines())
        expect_same(f"the bytes of {name}", int(size), len(content))
        files[name] = content
    return files


@test
def worked_store_is_what_the_program_writes():
    section = STORE_FORMAT.read_text().partition("### A worked store\n")[2]
    files = files_shown_in(section)
    expect_files(twice(), files)
    commands = re.findall(r"^    (.*)$", section, re.MULTILINE)
    expect_same("the number of commands", 3, len(commands))
    os.mkdir("s")
    shown_by([Example(f"{command}\n", "") for command in commands])
    expect_files(files, files_in("s"))
