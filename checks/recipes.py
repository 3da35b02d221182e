"""The recipes come out as they are written, with the real tools, if these are on the machine."""

import re
import shutil
from functools import partial
from pathlib import Path

from examples import FENCED, PROMPT, Example, examples_in, expect_shown
from harness import (
    NotTried,
    add_test,
    each_row,
    ended,
    expect_mismatch,
    expect_same,
    fresh_room,
    test,
)

RECIPES = Path(__file__).resolve().parent.parent / "docs/RECIPES.md"

# What each recipe needs beside the shell and coreutils. One with None is only shown.
TOOLS = {
    "A folder": ["tar", "diff"],
    "A database": ["sqlite3"],
    "A disk": ["cmp"],
    "Over ssh": None,
    "A progress bar": ["pv", "awk", "cmp"],
    "One writer at a time": ["flock"],
    "Every night": ["flock", "tar"],
    "A smaller store": [],
    "Verify a restore": ["cmp"],
    "After damage": ["cmp"],
}
# What makes the numbers of a tar the same on each machine, and the notes of the tools.
SETTINGS = {
    "LC_ALL": "C",
    "TAR_OPTIONS": "--mtime=@0 --owner=0 --group=0 --numeric-owner --mode=755",
}
NAMED_FILE = re.compile(r"`(\S+)`:\n\n```\n(.*?)^```$", re.MULTILINE | re.DOTALL)


def recipes_in(text):
    """What comes before the recipes, and each of them by its heading."""
    start, *parts = re.split(r"^## ", text, flags=re.MULTILINE)
    return start, {head: rest for head, _, rest in (it.partition("\n") for it in parts)}


def files_of(recipe):
    """The files that a recipe has the reader write, by their names."""
    blocks = NAMED_FILE.findall(recipe)
    return {name: block for name, block in blocks if not block.startswith(PROMPT)}


def expect_recipe(heading, start, recipe):
    """Expects that a recipe comes out in an empty folder, after what comes before all recipes."""
    if missing := [it for it in TOOLS[heading] if shutil.which(it) is None]:
        raise NotTried(f"there is no {missing[0]} on the PATH")
    for name, content in files_of(recipe).items():
        Path(name).write_text(content)
    settings = [Example(f"export {name}='{it}'\n", "") for name, it in SETTINGS.items()]
    examples = examples_in(recipe)
    expect_same(f"whether {heading!r} has commands to run", True, bool(examples))
    expect_shown([*settings, *examples_in(start), *examples])


def expect_written(heading):
    start, recipes = recipes_in(RECIPES.read_text())
    expect_recipe(heading, start, recipes[heading])


for it in TOOLS:
    if TOOLS[it] is not None:
        add_test(f"recipe {it!r} comes out", partial(expect_written, it))


@test
def every_recipe_is_in_the_list_of_those_that_are_tried():
    _, recipes = recipes_in(RECIPES.read_text())
    expect_same("the recipes", [*TOOLS], [*recipes])
    only_shown = [it for it, recipe in recipes.items() if not examples_in(recipe)]
    expect_same("those only shown", [it for it in TOOLS if TOOLS[it] is None], only_shown)


@test
def blocks_without_a_prompt_are_read_by_the_shell():
    blocks = [it for it in FENCED.findall(RECIPES.read_text()) if PROMPT not in it]
    expect_same("whether there are some", True, len(blocks) > 2)
    each_row(((it,) for it in blocks), expect_readable)


def expect_readable(block):
    came = ended(["bash", "-n", "-c", block], capture_output=True)
    expect_same("what the shell says", (0, b""), (came.status, came.notes))


WRONG_RECIPES = [
    ("One writer at a time", "status 1\n", "status 0\n"),
    ("One writer at a time", "ingested monday 108894", "ingested monday 108895"),
    ("One writer at a time", "--nonblock s backup", "--nonblock . backup"),
    ("After damage", "$ cp copy/head s\n", ""),
    ("Every night", "head -n -7", "head -n -6"),
    ("Every night", 'backup "$store" drop "$name"\n', "true\n"),
]


@test
def recipes_that_are_wrong_are_noticed():
    start, recipes = recipes_in(RECIPES.read_text())

    def expect_row(heading, old, new):
        recipe = recipes[heading]
        expect_same("how often the recipe has it", 1, recipe.count(old))
        with fresh_room():
            expect_mismatch(lambda: expect_recipe(heading, start, recipe.replace(old, new)))

    each_row(WRONG_RECIPES, expect_row)


@test
def shell_that_is_wrong_is_noticed():
    expect_mismatch(lambda: expect_readable("if true; then\n"))
