"""The demo passes what the program does, and refuses output with anything wrong in it."""

from pathlib import Path

from harness import PROGRAM, Mismatch, each_row, ended, expect_same, test

DEMO = Path(__file__).resolve().parent.parent / "demo"

WRAPPER = """#!/bin/sh
if [ "$2 $3" = "{command}" ]; then
    {doing}
else
    exec "{program}" "$@"
fi
"""


def demo_with(command, doing):
    """Runs the demo with a program that does something else at one command."""
    program = Path("wrapped").absolute()
    program.write_text(WRAPPER.format(command=command, doing=doing, program=PROGRAM))
    program.chmod(0o755)
    return ended(["env", f"BACKUP={program}", DEMO], input=b"", capture_output=True)


def through(filter_of_output):
    """What prints the output of the program through a filter."""
    return f'"{PROGRAM}" "$@" | {{ {filter_of_output}; }}'


@test
def demo_passes_what_the_program_does():
    came = demo_with("plan ", through("cat"))
    expect_same("status and notes", (0, b""), (came.status, came.notes))
    for part in (
        b"has 108902 bytes and added 11760.\n",
        b"\nok 1 live 2 ingested 13 chunks 1 containers\n",
        b"only the 4503 bytes before it.\n",
    ):
        expect_same(f"how often the demo says {part}", 1, came.output.count(part))
    damage = b"\nbackup: damaged chunk 1 kept "
    expect_same("how often the demo shows the damage", 2, came.output.count(damage))


def if_damaged(doing):
    """What runs the program, and does something else too if it finds a damage."""
    return f'"{PROGRAM}" "$@"; status=$?; [ $status != 7 ] || {{ {doing}; }}; exit $status'


def with_other_notes(filter_of_notes):
    """What runs the program and prints its notes through a filter."""
    filtered = f"{filter_of_notes} <noted >&2"
    return f'"{PROGRAM}" "$@" 2>noted; status=$?; {filtered}; exit $status'


OTHER_CHUNK = with_other_notes("sed 's/chunk 1/chunk 2/'")
PLAN, LIST, INIT, REFS, AUDIT = "plan ", "list ", "init ", "refs ", "audit "
WRONG_OUTPUT = [
    ("no line", PLAN, through("sed d")),
    ("one line", PLAN, through("sed -n 1p")),
    ("no last line", PLAN, through("sed '$d'")),
    ("no first line", PLAN, through("sed 1d")),
    ("no third line", PLAN, through("sed 3d")),
    ("a line twice", PLAN, through("sed 3p")),
    ("a wrong offset", PLAN, through("sed '3s/^/1/'")),
    ("a wrong length", PLAN, through("sed '3s/ / 1/'")),
    ("a length with a sign", PLAN, through("sed '3s/ / +/'")),
    ("a wrong name", PLAN, through("sed '3s/.$/x/'")),
    ("a wrong last name", PLAN, through("sed '$s/.$/x/'")),
    ("a name in capitals", PLAN, through("sed '3s/[a-f]/\\U&/g'")),
    ("a word too many", PLAN, through("sed '3s/$/ x/'")),
    ("no list", LIST, through("sed d")),
    ("a list of one", LIST, through("sed 1d")),
    ("a wrong number", LIST, through("sed '2s/1/2/'")),
    ("a list in another order", LIST, through("sort -r")),
    ("a session more", LIST, through("sed 'p;s/monday/x/'")),
    ("no line of an ingest", "ingest tuesday", through("sed d")),
    ("a line of another ingest", "ingest tuesday", through("sed s/tuesday/monday/")),
    ("a wrong number of bytes", "ingest monday", through("sed s/108894/108895/")),
    ("an ingest of nothing", "ingest tuesday", f'"{PROGRAM}" "$@" </dev/null'),
    ("nothing restored", "restore tuesday", through("cat >/dev/null")),
    ("another session", "restore tuesday", f'"{PROGRAM}" store restore monday'),
    ("a byte less", "restore monday", through("head -c -1")),
    ("a byte more", "restore monday", through("cat; echo")),
    ("a byte changed", "restore monday", through("tr 7 8")),
    ("a wrong status of restore", "restore monday", f'"{PROGRAM}" "$@"; exit 7'),
    ("no line of a drop", "drop monday", through("sed d")),
    ("a line of another drop", "drop monday", through("sed s/monday/tuesday/")),
    ("a wrong number of places", "drop monday", through("sed s/12/13/")),
    ("nothing dropped", "drop monday", "echo dropped monday 12 places"),
    ("another session dropped", "drop monday", f'"{PROGRAM}" store drop tuesday'),
    ("a wrong status of drop", "drop monday", f'"{PROGRAM}" "$@"; exit 6'),
    ("no references", REFS, through("sed d")),
    ("no first reference", REFS, through("sed 1d")),
    ("no last reference", REFS, through("sed '$d'")),
    ("a wrong count", REFS, through("sed '1s/ 1 / 2 /'")),
    ("a count of a dropped session", REFS, through("sed 's/ 0 / 1 /'")),
    ("a wrong length of a chunk", REFS, through("sed '1s/ 4503 / 4504 /'")),
    ("a wrong name of a chunk", REFS, through("sed '1s/.$/x/'")),
    ("a wrong status of refs", REFS, f'"{PROGRAM}" "$@"; exit 3'),
    ("no line of an audit", AUDIT, through("sed d")),
    ("a wrong number of live sessions", AUDIT, through("sed 's/1 live/2 live/'")),
    ("a wrong number of sessions", AUDIT, through("sed 's/2 ingested/1 ingested/'")),
    ("a wrong number of chunks", AUDIT, through("sed 's/13 chunks/12 chunks/'")),
    ("a wrong number of containers", AUDIT, through("sed 's/1 containers/2 containers/'")),
    ("a wrong status of audit", AUDIT, f'"{PROGRAM}" "$@"; exit 3'),
    ("an audit that notices no damage", AUDIT, if_damaged("exit 0")),
    ("an audit that prints and is refused", AUDIT, if_damaged("echo ok")),
    ("another damage", AUDIT, OTHER_CHUNK),
    ("another name that is found", AUDIT, with_other_notes("sed 's/.$/x/'")),
    ("a restore that notices no damage", "restore tuesday", if_damaged("exit 0")),
    ("a byte after a damage", "restore tuesday", if_damaged("echo")),
    ("a restore of another damage", "restore tuesday", OTHER_CHUNK),
    ("a wrong status of init", INIT, f'"{PROGRAM}" "$@"; exit 4'),
    ("a wrong status of list", LIST, f'"{PROGRAM}" "$@"; exit 3'),
    ("no store", INIT, "echo ready"),
]


@test
def demo_refuses_wrong_output():
    def expect_row(_, command, doing):
        came = demo_with(command, doing)
        if came.status != 1 or b"demo: " not in came.notes:
            raise Mismatch(f"wanted status 1 and a note, came {came.status} and {came.notes}")

    each_row(WRONG_OUTPUT, expect_row)
