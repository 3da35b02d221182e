"""Which words are refused and with what note."""

import string

import reference
from harness import (
    PROGRAM,
    STORE,
    each_row,
    ended,
    expect,
    expect_early_refusal,
    expect_refusal,
    run,
    test,
)
from reference import DEFAULTS

ABC = reference.plan(DEFAULTS, b"abc")


BAD_PARAMS = [
    (["polynomial=0"], "polynomial"),
    (["polynomial=1"], "polynomial"),
    (["polynomial=8001"], "polynomial"),
    (["polynomial=ffff"], "polynomial"),
    (["polynomial=10000"], "polynomial"),
    (["polynomial=8000000000000000"], "polynomial"),
    (["polynomial=fffffffffffffffe"], "polynomial"),
    (["bits=0"], "bits"),
    (["bits=17"], "bits"),
    (["bits=4294967295"], "bits"),
    (["target=8192"], "target"),
    (["target=4294967295"], "target"),
    (["bits=1", "target=2"], "target"),
    (["bits=6"], "target"),
    (["min=0"], "min"),
    (["min=47"], "min"),
    (["max=2047"], "max"),
    (["max=0"], "max"),
    (["max=1048577"], "max"),
    (["max=4294967295"], "max"),
    (["min=65537"], "max"),
    (["min=1048577", "max=1048577"], "max"),
    (["min=49", "max=48"], "max"),
    (["max=0", "min=0", "target=9999", "bits=99", "polynomial=2"], "polynomial"),
    (["max=0", "min=0", "target=9999", "bits=99"], "bits"),
    (["max=0", "min=0", "target=9999"], "target"),
    (["max=0", "min=0"], "min"),
]


@test
def bad_parameters_are_refused_by_the_first_kind():
    def expect_row(keys, kind):
        for command in ("plan", "init"):
            expect_early_refusal([STORE, command, *keys], f"bad parameter: {kind}")

    each_row(BAD_PARAMS, expect_row)


ALL_KEYS = ["polynomial=10001", "bits=9", "target=5", "min=48", "max=300"]

MISSING, COMMAND, KEY, VALUE = "0: missing", "0: command", "1: key", "1: value"
NO_NAME, NAME, NUMBER = "1: missing", "1: name", "1: number"
WRONG_WORDS = [
    ([], MISSING),
    ([""], MISSING),
    (["store"], MISSING),
    (["plan"], MISSING),
    (["--help"], MISSING),
    (["--"], MISSING),
    (["store", "--help"], COMMAND),
    (["store", "--version"], COMMAND),
    (["store", "--"], COMMAND),
    (["store", "--", "plan"], COMMAND),
    (["--", "store", "plan"], COMMAND),
    (["store", "Plan"], COMMAND),
    (["store", "plans"], COMMAND),
    (["store", "pla"], COMMAND),
    (["store", ""], COMMAND),
    (["store", "", "plan"], COMMAND),
    (["store", " plan"], COMMAND),
    (["store", "plan "], COMMAND),
    (["store", "plan\n"], COMMAND),
    (["store", "\tplan"], COMMAND),
    (["store", "plan bits=9"], COMMAND),
    (["store", "plän"], COMMAND),
    (["store", "ｐlan"], COMMAND),
    (["store", "store", "plan"], COMMAND),
    (["store", "Init"], COMMAND),
    (["store", "ingests", "a"], COMMAND),
    (["store", "lists"], COMMAND),
    (["store", "ls"], COMMAND),
    (["store", "restor", "a"], COMMAND),
    (["init"], MISSING),
    (["list"], MISSING),
    (["ingest", "a"], COMMAND),
    (["store", "Audit"], COMMAND),
    (["store", "audi"], COMMAND),
    (["store", "audits"], COMMAND),
    (["store", "audit "], COMMAND),
    (["audit"], MISSING),
    # This command is not built.
    (["store", "prune"], COMMAND),
    (["store", "Drop", "a"], COMMAND),
    (["store", "drops", "a"], COMMAND),
    (["store", "drop a"], COMMAND),
    (["store", "ref"], COMMAND),
    (["store", "Refs"], COMMAND),
    (["drop", "a"], COMMAND),
    (["refs"], MISSING),
    (["store", "list", "a"], KEY),
    (["store", "list", "bits=9"], KEY),
    (["store", "list", ""], KEY),
    (["store", "list", "--help"], KEY),
    (["store", "list", "list"], KEY),
    (["store", "init", "a"], KEY),
    (["store", "init", "workers=2"], KEY),
    (["store", "init", "batch=65536"], KEY),
    (["store", "init", ""], KEY),
    (["store", "init", "bits"], KEY),
    (["store", "init", "bits=09"], VALUE),
    (["store", "init", "min=4294967296"], VALUE),
    (["store", "init", "polynomial=0x11"], VALUE),
    (["store", "init", "bits=9", "bits=9"], "2: twice"),
    (["store", "init", *ALL_KEYS, "init"], "6: key"),
    (["store", "ingest"], NO_NAME),
    (["store", "restore"], NO_NAME),
    (["store", "drop"], NO_NAME),
    (["store", "drop", ".x"], NAME),
    (["store", "drop", "a", "b"], "2: key"),
    (["store", "drop", "a", ""], "2: key"),
    (["store", "drop", "a", "bits=9"], "2: key"),
    (["store", "drop", ".a", "b"], NAME),
    (["store", "drop", b"a\xff"], COMMAND),
    (["store", "refs", "x"], KEY),
    (["store", "refs", ""], KEY),
    (["store", "refs", "refs"], KEY),
    (["store", "audit", "a"], KEY),
    (["store", "audit", ""], KEY),
    (["store", "audit", "--help"], KEY),
    (["store", "audit", "audit"], KEY),
    (["store", "audit", "bits=9"], KEY),
    (["store", "audit", "workers=2"], KEY),
    (["store", "audit", "workers=0"], KEY),
    (["store", "audit", "segment=9"], KEY),
    (["store", "audit", "batch=65536"], KEY),
    (["store", "audit", "shards=16"], KEY),
    (["store", "audit", b"\xff"], COMMAND),
    (["store", "refs", "bits=9"], KEY),
    (["store", "ingest", "a", "b"], "2: key"),
    (["store", "restore", "a", "b"], "2: key"),
    (["store", "restore", "a", ""], "2: key"),
    (["store", "restore", "a", "bits=9"], "2: key"),
    (["store", "ingest", "a", "bits=9"], "2: key"),
    (["store", "ingest", "a", "seed=1"], "2: key"),
    (["store", "ingest", "a", "workers=0"], "2: value"),
    (["store", "ingest", "a", "workers=65"], "2: value"),
    (["store", "ingest", "a", "workers=04"], "2: value"),
    (["store", "ingest", "a", "segment=0"], "2: value"),
    (["store", "ingest", "a", "segment=268435457"], "2: value"),
    (["store", "ingest", "a", "workers=4", "segment=1", "workers=0"], "4: twice"),
    (["store", "ingest", "a", "workers=4", "min=64"], "3: key"),
    (["store", "ingest", "a", "shards=0"], "2: value"),
    (["store", "ingest", "a", "shards=257"], "2: value"),
    # One key of an ingest and of `bulk` is not built.
    (["store", "ingest", "a", "batch=65536"], "2: key"),
    (["store", "bulk"], NO_NAME),
    (["store", "bulk", "7"], "2: missing"),
    (["store", "bulk", "07"], NUMBER),
    (["store", "bulk", "07", "1"], NUMBER),
    (["store", "bulk", "x", "1"], NUMBER),
    (["store", "bulk", "18446744073709551616", "1"], NUMBER),
    (["store", "bulk", "100000000000000000000", "1"], NUMBER),
    (["store", "bulk", "7", "0"], "2: number"),
    (["store", "bulk", "7", "4097"], "2: number"),
    (["store", "bulk", "7", "workers=2"], "2: number"),
    (["store", "bulk", "workers=2", "7", "1"], NUMBER),
    (["store", "bulk", "7", "1", "2"], "3: key"),
    (["store", "bulk", "7", "1", "bits=9"], "3: key"),
    (["store", "bulk", "7", "1", "workers=65"], "3: value"),
    (["store", "bulk", "7", "1", "workers=2", "workers=2"], "4: twice"),
    (["store", "bulk", "7", "1", "batch=65536"], "3: key"),
    (["store", "bulk", "7", "1", "shards=257"], "3: value"),
    (["store", "Bulk", "7", "1"], COMMAND),
    (["bulk", "7", "1"], COMMAND),
    # The name is looked at before the words after it.
    (["store", "ingest", ".a", "b"], NAME),
    (["store", "restore", "--name", "a"], NAME),
    # If a word is not UTF-8, its place is not known.
    (["store", "ingest", b"a\xff"], COMMAND),
    (["store", "restore", b"\xff"], COMMAND),
    (["store", b"\xff"], COMMAND),
    (["store", "plan", b"\xff"], COMMAND),
    (["store", "plan", "bits=9", b"bits=\xff"], COMMAND),
    ([b"\xff", "plan"], COMMAND),
    (["store", "plan", "speed=3"], KEY),
    (["store", "plan", "plan"], KEY),
    (["store", "plan", ""], KEY),
    (["store", "plan", "--"], KEY),
    (["store", "plan", "--", "bits=9"], KEY),
    (["store", "plan", "--help"], KEY),
    (["store", "plan", "--bits=9"], KEY),
    (["store", "plan", "speed=3", "speed=3"], KEY),
    (["store", "plan", "bits"], KEY),
    (["store", "plan", "=3"], KEY),
    (["store", "plan", "="], KEY),
    (["store", "plan", "Bits=3"], KEY),
    (["store", "plan", "bit=9"], KEY),
    (["store", "plan", " bits=9"], KEY),
    (["store", "plan", "bits =9"], KEY),
    (["store", "plan", "\nbits=9"], KEY),
    (["store", "plan", "ｂits=9"], KEY),
    (["store", "plan", "workers=0"], VALUE),
    (["store", "plan", "workers=65"], VALUE),
    (["store", "plan", "workers=2", "workers=99"], "2: twice"),
    (["store", "plan", "workers"], KEY),
    (["store", "plan", "Workers=2"], KEY),
    (["store", "plan", "segment=0"], VALUE),
    (["store", "plan", "segment=268435457"], VALUE),
    (["store", "plan", "segment=18446744073709551617"], VALUE),
    (["store", "plan", "batch=65536"], KEY),
    (["store", "plan", "shards=16"], KEY),
    (["store", "plan", "bits=13", "speed=3"], "2: key"),
    (["store", "plan", "bits=13", "bits=99"], "2: twice"),
    (["store", "plan", "bits=13", "max=0", "bits=x"], "3: twice"),
    (["store", "plan", "bits=13", "bits"], "2: key"),
    (["store", "plan", "bits="], VALUE),
    (["store", "plan", "bits==3"], VALUE),
    (["store", "plan", "bits=9=9"], VALUE),
    (["store", "plan", "bits=07"], VALUE),
    (["store", "plan", "bits=00"], VALUE),
    (["store", "plan", "bits=+7"], VALUE),
    (["store", "plan", "bits=-7"], VALUE),
    (["store", "plan", "bits= 7"], VALUE),
    (["store", "plan", "bits=7 "], VALUE),
    (["store", "plan", "bits=7\n"], VALUE),
    (["store", "plan", "bits=7.0"], VALUE),
    (["store", "plan", "bits=1_0"], VALUE),
    (["store", "plan", "bits=a"], VALUE),
    (["store", "plan", "bits=９"], VALUE),
    (["store", "plan", "bits=0x7"], VALUE),
    (["store", "plan", "max=4294967296"], VALUE),
    (["store", "plan", "max=4295032832"], VALUE),
    (["store", "plan", "max=18446744073709551615"], VALUE),
    (["store", "plan", "max=18446744073709551616"], VALUE),
    (["store", "plan", "max=18446744073709617152"], VALUE),
    (["store", "plan", "max=100000000000000000000"], VALUE),
    (["store", "plan", "polynomial="], VALUE),
    (["store", "plan", "polynomial=0x11"], VALUE),
    (["store", "plan", "polynomial=1000g"], VALUE),
    (["store", "plan", "polynomial= 10001"], VALUE),
    (["store", "plan", "polynomial=+10001"], VALUE),
    (["store", "plan", "polynomial=00000000000010001"], VALUE),
    (["store", "plan", "min=64", "max=x", "speed=3"], "2: value"),
    # Bad words come before bad parameters.
    (["store", "plan", "bits=99", "speed=3"], "2: key"),
    (["store", "plan", *ALL_KEYS, "speed=3"], "6: key"),
    (["store", "plan", *ALL_KEYS, ""], "6: key"),
    (["store", "plan", *ALL_KEYS, "bits=9"], "6: twice"),
    (["store", "plan", *ALL_KEYS, "polynomial=10001"], "6: twice"),
    (["store", "plan", *ALL_KEYS, "max=x"], "6: twice"),
    (["store", "plan", *ALL_KEYS, "speed=3", "bits=9"], "6: key"),
    # Many words, words as long as the system takes them, and lengths that are short modulo 2^8
    # or 2^16.
    (["store"] * 1000, COMMAND),
    (["store", "plan"] + ["speed=3"] * 1000, KEY),
    (["store", "plan"] + ["bits=9"] * 1000, "2: twice"),
    (["store", "plan", *ALL_KEYS] + ["plan"] * 1000, "6: key"),
    (["store", "p" * 131_000], COMMAND),
    (["store", "plan" + "n" * 2**8], COMMAND),
    (["store", "plan" + "n" * 2**16], COMMAND),
    (["store", "plan" * 32_750], COMMAND),
    (["store", "plan" + " " * 131_000], COMMAND),
    (["store", "plan", "b" * 131_000], KEY),
    (["store", "plan", "b" * 130_000 + "=9"], KEY),
    (["store", "plan", "bits" + "s" * 2**8 + "=9"], KEY),
    (["store", "plan", "bits" + "s" * 2**16 + "=9"], KEY),
    (["store", "plan", "bits=13" + "0" * 2**8], VALUE),
    (["store", "plan", "bits=13" + "0" * 2**16], VALUE),
    (["store", "plan", "bits=" + "9" * 131_000], VALUE),
    (["store", "plan", "bits=" + "0" * 131_000], VALUE),
    (["store", "plan", "polynomial=" + "0" * 130_000 + "10001"], VALUE),
]


@test
def wrong_words_are_refused_by_their_place():
    def expect_row(words, end):
        expect_early_refusal(words, f"bad words at {end}")

    each_row(WRONG_WORDS, expect_row)


BAD_NAMES = [
    "",
    " ",
    ".",
    "..",
    ".a",
    "_a",
    "-a",
    "--",
    "-",
    "a b",
    " a",
    "a ",
    "a\n",
    "\na",
    "a\t",
    "a/b",
    "/",
    "a=b",
    "a:b",
    "a,b",
    "a*",
    "a~",
    "a+b",
    "a@b",
    "[a]",
    "`a`",
    "a{",
    "\x7f",
    "a\x01",
    "ö",
    "aö",
    "ａ",
    "a\u0301",
    "a" * 65,
    "a" * 2**8,
    "a" * (2**8 + 1),
    "a" * 2**16,
    "a" * 131_000,
    "ö" * 32,
    "a" * 63 + "ö",
]


@test
def names_that_are_none_are_refused():
    def expect_row(name):
        for command in ("ingest", "restore", "drop"):
            expect_early_refusal([STORE, command, name], f"bad words at {NAME}")

    each_row(((name,) for name in BAD_NAMES), expect_row)


@test
def names_of_every_letter_are_taken():
    letters = string.ascii_letters + string.digits
    for name in [*letters, *(f"a{it}" for it in letters + "._-"), "a" * 64, "A-.-_" * 12]:
        for command in ("ingest", "restore", "drop"):
            expect_early_refusal([STORE, command, name], "no store")


@test
def program_name_that_is_no_text_is_refused_like_a_word():
    came = ended([b"\xff", STORE, "plan"], executable=PROGRAM, input=b"abc", capture_output=True)
    expect_refusal(came, "bad words at 0: command")


@test
def five_keys_are_taken_in_any_order():
    text = bytes(700)
    params = reference.Params(polynomial=0x10001, bits=9, target=5, min=48, max=300)
    for start in range(5):
        keys = ALL_KEYS[start:] + ALL_KEYS[:start]
        expect(run([STORE, "plan", *keys], text), output=reference.plan(params, text))


@test
def environment_does_not_matter():
    expect(run([STORE, "plan"], b"abc", starter=("env", "-i")), output=ABC)
