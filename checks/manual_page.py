"""Reads the manual page: its commands, keys, limits, files, statuses and notes."""

import re
import shlex
from typing import NamedTuple

# Macros that only say how the words after them look.
LOOKS = {"Cm", "Em", "Li", "Pa"}
CLOSING = {":", ",", "."}


class Command(NamedTuple):
    # The names of its words, and whether keys come after them.
    words: list
    has_keys: bool
    # The lines that it prints, and whether it says that nothing is read.
    prints: list
    reads_nothing: bool


class Key(NamedTuple):
    least: str
    most: str
    default: str
    commands: list


class Item(NamedTuple):
    head: list
    lines: list


def section_of(page, title):
    """The lines of a section or of a part of one."""
    lines = page.splitlines()
    heads = [number for number, line in enumerate(lines) if line[:3] in (".Sh", ".Ss")]
    for start, end in zip(heads, [*heads[1:], len(lines)]):
        if lines[start][4:] == title:
            return lines[start + 1 : end]
    return []


def items_of(page, title):
    """The items of the lists of a section, in order."""
    items = []
    for line in section_of(page, title):
        if line.startswith(".It "):
            items.append(Item(shlex.split(line)[1:], []))
        elif line == ".El" and items:
            items[-1].lines.append("")
        elif items and "" not in items[-1].lines:
            items[-1].lines.append(line)
    return items


def rows_of(page, title):
    """The rows of the table of a section, each without the macros of its cells."""
    rows = [" ".join(item.head).split(" Ta ") for item in items_of(page, title)]
    return [[plain(cell.split()) for cell in row] for row in rows[1:]]


def plain(tokens):
    return " ".join(token for token in tokens if token not in LOOKS)


class Pattern(NamedTuple):
    """A line of fixed words and of words that have a name and any value."""

    # Each token is a name of a value, or fixed words.
    tokens: list

    def filled(self, values):
        """The line with these values, or with `?` for one that is not among them."""
        line = ""
        for is_name, token in self.tokens:
            word = values.get(token, "?") if is_name else token
            line += word if word in CLOSING or not line else f" {word}"
        return line

    def matches(self, line):
        joined = ""
        for is_name, token in self.tokens:
            word = r"\S+" if is_name else re.escape(token)
            joined += word if token in CLOSING or not joined else f" {word}"
        return re.fullmatch(joined, line) is not None


def pattern_of(tokens):
    """The pattern of the words of a line: those after Ar are names, the others are fixed."""
    is_name, words = False, []
    for token in tokens:
        if token == "Ar" or token in LOOKS:
            is_name = token == "Ar"
        else:
            words.append((is_name and token not in CLOSING, token))
    return Pattern(words)


def command_of(tokens):
    """The name of a command and the names of its words, and whether keys come after them."""
    words = pattern_of(tokens[: tokens.index("Op")] if "Op" in tokens else tokens).tokens
    return words[0][1], [token for _, token in words[1:]], "Op" in tokens


def commands_in(page):
    commands = {}
    for item in items_of(page, "Commands"):
        name, words, has_keys = command_of(item.head)
        prints = [it.split()[1:] for it in item.lines if it.startswith(".Dl ")]
        reads_nothing = any("Reads nothing" in it for it in item.lines)
        patterns = [pattern_of(it) for it in prints]
        commands[name] = Command(words, has_keys, patterns, reads_nothing)
    return commands


def synopsis_in(page):
    """What the synopsis says of each command: its name, its words, and whether it has keys."""
    text = " ".join(it.lstrip(".") for it in section_of(page, "SYNOPSIS"))
    forms = [form.split() for form in text.split("Nm")[1:]]
    return [command_of(form[2:]) for form in forms if form[:2] == ["Ar", "store"]]


def keys_in(page):
    rows = rows_of(page, "Keys")
    return {key: Key(*cells, commands.split()) for key, *cells, commands in rows}


def limits_in(page):
    return {what: int(number) for what, number in rows_of(page, "Limits")}


def files_in_page(page):
    return [plain(item.head) for item in items_of(page, "FILES")]


def statuses_in(page):
    """The pattern of the note of each status. Status 0 has none."""
    items = [item.head for item in items_of(page, "EXIT STATUS") if item.head[0].isdecimal()]
    return {int(status): pattern_of(note) for status, *note in items}


def kinds_in(page):
    """The kinds of bad words."""
    heads = [plain(item.head) for item in items_of(page, "DIAGNOSTICS")]
    return [head for head in heads if not head.startswith("damaged ")]


def damages_in(page):
    """The patterns of the notes of damage."""
    heads = [item.head for item in items_of(page, "DIAGNOSTICS")]
    return [pattern_of(head) for head in heads if plain(head).startswith("damaged ")]


def examples_part(page):
    """The examples, as a block of a document."""
    lines = section_of(page, "EXAMPLES")
    shown = lines[lines.index(".Bd -literal -offset indent") + 1 : lines.index(".Ed")]
    return "\n".join(["```", *shown, "```", ""])
