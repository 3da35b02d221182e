"""Runs the examples of a document in one shell, and compares what they show."""

import os
import re
import shlex
import tempfile
from pathlib import Path
from subprocess import DEVNULL
from typing import NamedTuple

from harness import PROGRAM, Mismatch, ended, expect_same

FENCED = re.compile(r"^```[^\n]*\n(.*?)^```$", re.MULTILINE | re.DOTALL)
PROMPT = "$ "


class Example(NamedTuple):
    command: str
    output: str


def examples_of_block(block):
    """The commands after a prompt, each with the lines up to the next. A `\\` continues a line."""
    examples, continues = [], False
    for line in block.splitlines(keepends=True):
        if line.startswith(PROMPT):
            examples.append(Example(line[len(PROMPT) :], ""))
        elif continues:
            examples[-1] = examples[-1]._replace(command=examples[-1].command + line)
        elif examples:
            examples[-1] = examples[-1]._replace(output=examples[-1].output + line)
        continues = line.endswith("\\\n") and (continues or line.startswith(PROMPT))
    return examples


def examples_in(text):
    return [it for block in FENCED.findall(text) for it in examples_of_block(block)]


def shown_by(examples):
    """Runs the examples one after another in one shell, and returns what each shows."""
    with tempfile.TemporaryDirectory() as folder:
        os.symlink(PROGRAM, f"{folder}/backup")
        lines = [f'PATH={folder}:"$PATH"']
        for number, example in enumerate(examples):
            # A terminal has the output and the notes.
            lines.append(f"eval {shlex.quote(example.command)} >{folder}/{number} 2>&1")
        ended(["bash", "-c", "\n".join(lines)], stdin=DEVNULL, capture_output=True)
        return [Path(folder, str(number)).read_text() for number in range(len(examples))]


def expect_shown(examples):
    """Expects that the examples, run one after another, show what is written after each."""
    for example, came in zip(examples, shown_by(examples)):
        expect_same(f"what {example.command.strip()!r} shows", example.output, came)


def expect_examples(text):
    examples = examples_in(text)
    if not examples:
        raise Mismatch(f"wanted examples with the prompt {PROMPT!r}, came none")
    expect_shown(examples)
