"""What a store is worth if a call of the system fails: on files, handles, memory or threads."""

import os
import socket
import subprocess
from dataclasses import replace
from pathlib import Path
from random import Random

from folders import (
    COMMANDS,
    FOLDER,
    INGESTED,
    INIT,
    LISTED,
    OUTPUTS,
    READING,
    TEXT,
    expect_committed,
    expect_files,
    wanted_run,
    with_drop,
    with_ingest,
)
from harness import (
    NotTried,
    each_row,
    expect,
    expect_refusal,
    expect_same,
    fresh_room,
    run,
    test,
)
from pipes import limiting_files, with_memory
from reference import DEFAULTS, SPARSE_ZERO, keys_of, plan
from reference_audit import audit
from reference_store import (
    OPEN_HEAD,
    files_in,
    ingest,
    init,
    list_sessions,
    twice,
    write_files,
)

NO_STORE, STORE = "no store", "store failed"


def expect_one_of(came, notes):
    """Expects one of these refusals."""
    note = next((it for it in notes if came.notes == f"backup: {it}\n".encode()), notes[0])
    expect_refusal(came, note)


# What is in the place of a folder or of a file.


@test
def folder_that_is_not_there_has_no_store_and_is_not_made():
    def expect_row(folder):
        for words in COMMANDS:
            expect_refusal(run([folder, *words], b"abc"), NO_STORE)
        expect_refusal(run([folder, "init"]), STORE)

    os.symlink("nowhere", "dangling")
    each_row([("no",), ("no/such/folder",), ("dangling",), ("",)], expect_row)


@test
def folder_that_cannot_be_looked_into_has_failed():
    def expect_row(folder):
        for words in [*COMMANDS, ["init"]]:
            expect_refusal(run([folder, *words], b"abc"), STORE)

    os.symlink("loop", "loop")
    each_row([("loop",), ("loop/s",), ("s" * 256,), ("s/" * 3000,), ("s" * 131_000,)], expect_row)


@test
def file_in_the_place_of_the_folder_is_refused():
    Path("file").write_bytes(b"kept")
    for folder in ("file", "file/s", "/dev/null"):
        for words in COMMANDS:
            expect_one_of(run([folder, *words], b"abc"), [STORE, NO_STORE])
        expect_refusal(run([folder, "init"]), STORE)


def make_socket(path):
    with socket.socket(socket.AF_UNIX) as made:
        made.bind(os.fspath(path))


THINGS = {
    "folder": os.mkdir,
    "pipe": os.mkfifo,
    "socket": make_socket,
    "link to itself": lambda path: os.symlink(path.name, path),
    "link to a folder": lambda path: os.symlink("..", path),
    "device": lambda path: os.symlink("/dev/null", path),
    "endless device": lambda path: os.symlink("/dev/zero", path),
}


def put_in_the_place_of(name, make):
    write_files(FOLDER, twice())
    path = Path(FOLDER, name)
    path.unlink(missing_ok=True)
    make(path)


@test
def what_is_no_file_has_failed_as_one():
    def expect_row(name, thing):
        with fresh_room():
            put_in_the_place_of(name, THINGS[thing])
            for words in COMMANDS:
                expect_refusal(run([FOLDER, *words], TEXT), STORE)

    each_row(((name, thing) for name in twice() for thing in THINGS), expect_row)


@test
def what_is_no_file_is_not_made_a_store():
    def expect_row(name, thing):
        with fresh_room():
            os.mkdir(FOLDER)
            THINGS[thing](Path(FOLDER, name))
            expect_refusal(run([FOLDER, "init"], changes=FOLDER), STORE)

    each_row(((name, thing) for name in ("head", "seal.0") for thing in THINGS), expect_row)


@test
def what_is_in_the_place_of_a_new_container_leaves_the_store_as_it_was():
    def expect_row(thing):
        with fresh_room():
            files = {}
            init(files, DEFAULTS)
            ingest(files, b"e", b"")
            write_files(FOLDER, files)
            THINGS[thing](Path(FOLDER, "container.0.0"))
            expect_refusal(run([FOLDER, "ingest", "n"], b"abc", changes=FOLDER), STORE)
            expect(run([FOLDER, "list"]), output=b"0 e 0 0\n")

    each_row(((thing,) for thing in THINGS), expect_row)


@test
def link_to_a_file_is_followed():
    write_files(FOLDER, twice())
    for name in twice():
        os.rename(f"{FOLDER}/{name}", f"nest/{name}")
        os.symlink(f"../nest/{name}", f"{FOLDER}/{name}")
    for words in READING:
        expect(run([FOLDER, *words]), output=OUTPUTS[words[0]])


# Permissions.


def under_permissions():
    """A starter under which permissions hold back every user, or None if there is none."""
    if os.geteuid():
        return ("env",)
    powers = "-dac_override,-dac_read_search"
    starter = ("setpriv", f"--bounding-set={powers}", f"--inh-caps={powers}")
    Path("shut").touch(mode=0)
    try:
        is_held_back = subprocess.run([*starter, "cat", "shut"], capture_output=True).returncode
    except FileNotFoundError:
        is_held_back = False
    os.unlink("shut")
    return starter if is_held_back else None


def permissions_test(function):
    """A test that is tried, with a starter, if permissions can hold the program back."""

    def tried():
        starter = under_permissions()
        if starter is None:
            raise NotTried("permissions do not hold root back, and setpriv does not")
        function(starter)

    tried.__name__ = function.__name__
    return test(tried)


# Which commands have failed if a file has this mode. Sizes alone need no permission on a file.
MODES = [
    ("head", 0, ["list", "restore", "refs", "audit", "ingest", "drop", "bulk"]),
    ("book.0", 0, ["list", "restore", "refs", "audit", "ingest", "drop", "bulk"]),
    ("container.0.0", 0, ["restore", "audit", "ingest", "bulk"]),
    ("seal.0", 0, ["ingest", "drop", "bulk"]),
    ("head", 0o400, []),
    ("book.0", 0o400, ["ingest", "drop", "bulk"]),
    ("container.0.0", 0o400, ["ingest", "bulk"]),
    ("seal.0", 0o400, ["ingest", "drop", "bulk"]),
]


@permissions_test
def files_without_permission_have_failed(starter):
    def expect_row(name, mode, failing):
        for words in COMMANDS:
            write_files(FOLDER, twice())
            os.chmod(f"{FOLDER}/{name}", mode)
            came = run([FOLDER, *words], TEXT, starter=starter, changes=FOLDER)
            os.chmod(f"{FOLDER}/{name}", 0o644)
            if words[0] in failing:
                expect_refusal(came, STORE)
                expect_committed()
            else:
                expect(came, output=OUTPUTS[words[0]])

    each_row(MODES, expect_row)


def run_in(mode, words, starter):
    """Runs a command over a folder that has this mode until the end of the run."""
    os.chmod(FOLDER, mode)
    try:
        return run([FOLDER, *words], TEXT, starter=starter, changes=FOLDER)
    finally:
        os.chmod(FOLDER, 0o755)


@permissions_test
def folders_without_permission_have_failed(starter):
    write_files(FOLDER, twice())
    for words in [*COMMANDS, INIT]:
        expect_refusal(run_in(0, words, starter), STORE)
    # Nothing can be made in a folder that cannot be written.
    expect(run_in(0o500, ["list"], starter), output=LISTED)
    expect(run_in(0o500, ["restore", "a"], starter), output=bytes(200))
    expect_committed()
    write_files(FOLDER, {})
    expect_refusal(run_in(0o500, INIT, starter), STORE)
    expect(run([FOLDER, *INIT], changes=FOLDER), output=b"ready\n")


def expect_before_the_next_ingest(files):
    """Expects the sessions of these files and no other, and that the next is taken in."""
    expect(run([FOLDER, "list"]), output=list_sessions(files))
    came = run([FOLDER, "ingest", "n"], TEXT, changes=FOLDER)
    expect_same("the status of the next ingest", 0, came.status)
    expect_files(with_ingest(files), files_in(FOLDER))


@permissions_test
def ingest_that_cannot_make_a_file_leaves_the_store_as_it_was(starter):
    """The folder cannot be written, and files that the ingest needs are not there."""

    def expect_row(files):
        write_files(FOLDER, files)
        expect_refusal(run_in(0o500, ["ingest", "n"], starter), STORE)
        expect_before_the_next_ingest(files)

    empty = {"head": twice()["head"]}
    each_row([(empty,), (with_ingest(empty, b"e", b""),)], expect_row)


@permissions_test
def command_that_cannot_sync_the_folder_leaves_the_store_as_it_was(starter):
    """A folder that cannot be read can be written, and not be opened for its sync."""

    def expect_row(files, words):
        write_files(FOLDER, files)
        expect_refusal(run_in(0o300, words, starter), STORE)
        expect_before_the_next_ingest(files)

    rows = [
        (twice(), ["ingest", "n"]),
        ({"head": twice()["head"]}, ["ingest", "n"]),
        (twice(), ["drop", "a"]),
    ]
    each_row(rows, expect_row)


# Handles and sizes of files.


@test
def few_handles_leave_the_store_as_it_was():
    statuses = set()

    def expect_row(handles):
        with fresh_room():
            write_files(FOLDER, twice())
            starter = ("sh", "-c", f'ulimit -n {handles}; exec "$@"', "sh")
            came = run([FOLDER, "ingest", "n"], TEXT, starter=starter, changes=FOLDER)
            statuses.add(came.status)
            if came.status == 0:
                expect_files(with_ingest(twice()), files_in(FOLDER))
            else:
                expect_refusal(came, STORE)
                expect_committed()

    # Fewer than four do not let the program begin.
    each_row([(handles,) for handles in (4, 5, 6, 7, 8, 9, 10, 12, 16, 40)], expect_row)
    expect_same("whether 40 handles do", True, 0 in statuses)


@test
def ingest_that_fails_at_any_length_of_a_file_leaves_what_was_committed():
    whole = with_ingest(twice())
    longest = max(map(len, whole.values()))

    def expect_row(length):
        write_files(FOLDER, twice())
        words = [FOLDER, "ingest", "n"]
        came = run(words, TEXT, changes=FOLDER, before_start=limiting_files(length))
        if length < longest:
            expect_refusal(came, STORE)
            expect_committed()
        else:
            expect(came, output=INGESTED)
            expect_files(whole, files_in(FOLDER))

    # A limit below what the container has lets no byte be appended, like the last such one.
    shortest = len(twice()["container.0.0"]) - 1
    each_row([(length,) for length in (0, *range(shortest, longest + 2))], expect_row)


@test
def drop_that_fails_at_any_length_of_a_file_leaves_what_was_committed():
    whole = with_drop(twice())
    longest = max(map(len, whole.values()))

    def expect_row(length):
        write_files(FOLDER, twice())
        came = run([FOLDER, "drop", "a"], changes=FOLDER, before_start=limiting_files(length))
        if length < longest:
            expect_refusal(came, STORE)
            expect_committed()
        else:
            expect(came, output=OUTPUTS["drop"])
            expect_files(whole, files_in(FOLDER))

    # A limit below what the book has lets no byte be appended, like the last such one.
    shortest = len(twice()["book.0"]) - 1
    each_row([(length,) for length in (0, *range(shortest, longest + 2))], expect_row)


@test
def init_that_fails_at_any_length_of_a_file_can_be_made_again():
    words = [FOLDER, *INIT]

    def expect_row(length):
        write_files(FOLDER, {"seal.0": b"SSS"})
        came = run(words, changes=FOLDER, before_start=limiting_files(length))
        if length < OPEN_HEAD:
            expect_refusal(came, STORE)
            expect_refusal(run([FOLDER, "list"]), NO_STORE)
            came = run(words, changes=FOLDER)
        expect(came, output=b"ready\n")
        expect_files({"head": twice()["head"]}, files_in(FOLDER))

    each_row([(length,) for length in range(OPEN_HEAD + 2)], expect_row)


@test
def container_that_fails_at_drawn_lengths_leaves_what_was_committed():
    draw = Random(31)
    text = draw.randbytes(300_000)
    files = {}
    init(files, DEFAULTS)
    for length in [0, 7, 8, 9, *(draw.randrange(290_000) for _ in range(8))]:
        write_files(FOLDER, files)
        words = [FOLDER, "ingest", "n"]
        came = run(words, text, changes=FOLDER, before_start=limiting_files(length))
        expect_refusal(came, STORE)
        expect(run([FOLDER, "list"]))
        came = run(words, text, changes=FOLDER)
        expect_same("the status of the next ingest", 0, came.status)
        expect(run([FOLDER, "restore", "n"]), output=text)


@test
def memory_that_is_too_little_leaves_what_was_committed():
    text, statuses = bytes(8_000_000), set()
    for kibibytes in range(8_000, 60_000, 4_000):
        write_files(FOLDER, twice())
        starter = with_memory(kibibytes)
        came = run([FOLDER, "ingest", "n"], text, starter=starter, changes=FOLDER)
        statuses.add(came.status)
        if came.status == 0:
            expect(run([FOLDER, "restore", "n"]), output=text)
        else:
            expect_refusal(came, "out of memory")
        for name in "ab":
            expect(run([FOLDER, "restore", name]), output=bytes(200))
    expect_same("statuses from too little memory to enough", {0, 13}, statuses)


@test
def audit_in_too_little_memory_says_so():
    files, statuses = {}, set()
    init(files, replace(DEFAULTS, min=4000, max=4000))
    ingest(files, b"a", Random(46).randbytes(12_000_000))
    write_files(FOLDER, files)
    line = b"ok 1 live 1 ingested 3000 chunks 3 containers\n"
    for kibibytes in range(8_000, 100_000, 4_000):
        came = run([FOLDER, "audit"], starter=with_memory(kibibytes))
        statuses.add(came.status)
        if came.status == 0:
            expect(came, output=line)
        else:
            expect_refusal(came, "out of memory")
    expect_same("statuses from too little memory to enough", {0, 13}, statuses)


@test
def bulk_in_too_little_memory_leaves_the_store_as_it_was():
    write_files(FOLDER, twice())
    came = run([FOLDER, "bulk", "1", "4096"], starter=with_memory(100_000))
    expect_refusal(came, "out of memory")
    expect_committed()


# Threads.

# The limit on threads does not hold root back, so another user runs the program. It may open all
# files, as root may.
POWERS = ("--inh-caps=+dac_override", "--ambient-caps=+dac_override")
OTHER_USER = ("setpriv", "--reuid=65534", *POWERS)


def with_threads(most):
    """A starter under which the user of the program has at most so many threads."""
    user = () if os.geteuid() else OTHER_USER
    return (*user, "prlimit", f"--nproc={most}")


def threads_are_held_back():
    command = [*with_threads(1), "sh", "-c", ": & wait"]
    try:
        return subprocess.run(command, capture_output=True).returncode != 0
    except FileNotFoundError:
        return False


@test
def workers_without_threads_do_the_same():
    """The system starts no thread, or fewer than there are workers.

    The names of the input are so many that threads would share their sort.
    """
    if not threads_are_held_back():
        raise NotTried("a limit on threads does not hold the program back")
    keys, text = ["workers=4", "segment=1000"], Random(45).randbytes(9000) + bytes(400_000)
    lines, after = plan(SPARSE_ZERO, text), twice()
    line = wanted_run(ingest, after, b"n", text)

    def expect_row(threads):
        write_files(FOLDER, twice())
        starter = with_threads(threads)
        words = [FOLDER, "plan", *keys_of(SPARSE_ZERO), *keys]
        expect(run(words, text, starter=starter), output=lines)
        words = [FOLDER, "ingest", "n", *keys]
        expect(run(words, text, starter=starter, changes=FOLDER), *line)
        expect_files(after, files_in(FOLDER))
        expect(run([FOLDER, "restore", "n"], starter=starter), output=text)
        expect(run([FOLDER, "audit"], starter=starter), *wanted_run(audit, after))

    each_row([(threads,) for threads in (1, 2, 3, 5)], expect_row)
