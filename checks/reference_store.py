"""A second implementation of the store: its files, the verdict of opening them, and its commands.

The files of a store are a dict from their names to their bytes. A file that is missing is empty.
Run as a program it compares itself with values that were worked out by hand.
"""

import struct
from collections import Counter, defaultdict
from hashlib import sha256
from pathlib import Path
from typing import NamedTuple

import reference
from reference import LONGEST_INPUT, SPARSE_ZERO, Params, compare

MAX_SESSIONS = 2**12
MAX_PLACES = 2**24
MAX_CHUNKS = 2**22
MAX_CHUNK = 2**20
MAX_CONTAINER = 2**22
MAX_GENERATION = 65_535
CONTAINER_HEADER = 8
SETTINGS = 32
OPEN_HEAD = SETTINGS + 1
DIGEST = 32
COMMIT = b"\x53"
LETTERS = frozenset(b"abcdefghijklmnopqrstuvwxyzABCDEFGHIJKLMNOPQRSTUVWXYZ0123456789")


class Refusal(Exception):
    """A command that is refused with a note, and what it has written until then."""

    def __init__(self, note, written=b""):
        super().__init__(note)
        self.note = note
        self.written = written


# Settings.


def bad_parameter(params):
    """The key of the first parameter that is out of its range, or None."""
    ranges = {
        "polynomial": 17 <= params.polynomial.bit_length() <= 64 and params.polynomial % 2 == 1,
        "bits": 1 <= params.bits <= 16,
        "target": params.target < 2 ** min(params.bits, 32),
        "min": params.min >= 48,
        "max": params.min <= params.max <= MAX_CHUNK,
    }
    return next((key for key, is_good in ranges.items() if not is_good), None)


def settings_of(params):
    numbers = (params.bits, 0, params.polynomial, params.target, params.min, params.max)
    return struct.pack(">4sBBBBQIII4x", b"SSCH", 1, 0, *numbers)


def params_of(settings):
    """The valid parameters that have these settings, or None."""
    bits, polynomial, target, least, most = struct.unpack(">6xBxQIII4x", settings)
    params = Params(polynomial, bits, target, least, most)
    is_right = bad_parameter(params) is None and settings_of(params) == settings
    return params if is_right else None


# Records.


class NewChunk(NamedTuple):
    length: int
    name: bytes


class Ingest(NamedTuple):
    name: bytes
    length: int
    fresh: list
    recipe: list


class Drop(NamedTuple):
    session: int


def u32(number):
    return number.to_bytes(4, "big")


def body_of_ingest(name, length, chunks, fresh, places, recipe):
    """The body of an ingest whose two lists are spelled already."""
    return b"".join(
        [bytes([len(name)]), name, u32(length), u32(chunks), fresh, u32(places), recipe]
    )


def body_of(record):
    if isinstance(record, Drop):
        return u32(record.session)
    fresh = b"".join(u32(it.length) + it.name for it in record.fresh)
    recipe = b"".join(map(u32, record.recipe))
    counts = (len(record.fresh), fresh, len(record.recipe), recipe)
    return body_of_ingest(record.name, record.length, *counts)


def sealed(kind, body):
    """A record of a kind and a body: both, the length between them, and the digest of all."""
    start = kind + u32(len(body)) + body
    return start + sha256(start).digest()


def spelling_of(record):
    return sealed(b"D" if isinstance(record, Drop) else b"I", body_of(record))


class Ungrammatical(Exception):
    pass


class Reader:
    """Takes the fields of a body one after another."""

    def __init__(self, body):
        self.rest = memoryview(body)

    def take(self, count):
        piece, self.rest = self.rest[:count], self.rest[count:]
        if len(piece) < count:
            raise Ungrammatical
        return bytes(piece)

    def number(self, least=0, greatest=2**32 - 1):
        number = int.from_bytes(self.take(4), "big")
        if not least <= number <= greatest:
            raise Ungrammatical
        return number

    def end(self):
        if self.rest:
            raise Ungrammatical


def is_name(name):
    return 1 <= len(name) <= 64 and name[0] in LETTERS and not {*name} - LETTERS - {*b"._-"}


def read_ingest(reader):
    name = reader.take(reader.take(1)[0])
    if not is_name(name):
        raise Ungrammatical
    length = reader.number()
    chunks = struct.iter_unpack(">I32s", reader.take(36 * reader.number(0, MAX_CHUNKS)))
    fresh = [NewChunk(*it) for it in chunks]
    if any(not 1 <= it.length <= MAX_CHUNK for it in fresh):
        raise Ungrammatical
    places = struct.iter_unpack(">I", reader.take(4 * reader.number(0, MAX_PLACES)))
    return Ingest(name, length, fresh, [number for (number,) in places])


def read_body(kind, body):
    reader = Reader(body)
    if kind == b"I":
        record = read_ingest(reader)
    elif kind == b"D":
        record = Drop(reader.number())
    else:
        raise Ungrammatical
    reader.end()
    return record


def record_at(book, start):
    """The record that stands here and where it ends, or None if it is not whole or not right."""
    if len(book) < start + 5:
        return None
    end = start + 5 + int.from_bytes(book[start + 1 : start + 5], "big") + DIGEST
    spelling = book[start:end]
    if len(book) < end or sha256(spelling[:-DIGEST]).digest() != spelling[-DIGEST:]:
        return None
    try:
        return read_body(spelling[:1], spelling[5:-DIGEST]), end
    except Ungrammatical:
        return None


# The book.


class Book:
    """What records say: the sessions, dropped ones too, and the chunks. Each has its number."""

    def __init__(self):
        self.sessions = []
        self.live = {}
        self.chunks = []
        # For each session, how many chunks the book has up to and with its record.
        self.known = []
        self.places = 0
        self.used = 0

    def may_take(self, record, longest):
        if isinstance(record, Drop):
            return record.session in self.live.values()
        return (
            record.name not in self.live
            and all(it.length <= longest for it in record.fresh)
            and len(self.sessions) < MAX_SESSIONS
            and self.places + len(record.recipe) <= MAX_PLACES
            and len(self.chunks) + len(record.fresh) <= MAX_CHUNKS
        )

    def take(self, record):
        if isinstance(record, Drop):
            del self.live[self.sessions[record.session].name]
            return
        self.live[record.name] = len(self.sessions)
        self.sessions.append(record)
        self.chunks += record.fresh
        self.known.append(len(self.chunks))
        self.places += len(record.recipe)

    def flaw_of(self, session):
        """The first place at which a recipe fails, or None."""
        record, known = self.sessions[session], self.known[session]
        for place, number in enumerate(record.recipe):
            if number >= known:
                return place
        length = sum(self.chunks[number].length for number in record.recipe)
        return None if length == record.length else len(record.recipe)

    def lengths(self):
        return [it.length for it in self.chunks]

    def counts(self):
        """How many places of live sessions name each chunk."""
        recipes = [self.sessions[number].recipe for number in self.live.values()]
        counts = Counter(number for recipe in recipes for number in recipe)
        return [counts[number] for number in range(len(self.chunks))]


def read_book(text, records, longest):
    """The book of the first records of a text. Raises a refusal at the first damage."""
    book = Book()
    for number in range(records):
        found = record_at(text, book.used)
        if found is None or not book.may_take(found[0], longest):
            raise Refusal(f"damaged record {number}")
        book.take(found[0])
        book.used = found[1]
    for session in range(len(book.sessions)):
        if (place := book.flaw_of(session)) is not None:
            raise Refusal(f"damaged recipe {session} {place}")
    return book


# Containers.


def spots_of(lengths):
    """Where each chunk lies: its container, and its offset there."""
    spots, container, end = [], -1, MAX_CONTAINER
    for length in lengths:
        if end + length > MAX_CONTAINER:
            container, end = container + 1, CONTAINER_HEADER
        spots.append((container, end))
        end += length
    return spots


def sizes_of(lengths):
    """The size of each container of these chunks."""
    sizes = []
    for (container, offset), length in zip(spots_of(lengths), lengths):
        sizes[container:] = [offset + length]
    return sizes


def container_header(number):
    return b"SSCP" + u32(number)


def pack(files, generation, lengths, chunks):
    """Puts chunks after those that have these lengths. Before an append a tail is cut."""
    sizes = sizes_of(lengths)
    spots = spots_of(lengths + [len(it) for it in chunks])[len(lengths) :]
    for (container, offset), chunk in zip(spots, chunks):
        name = f"container.{generation}.{container}"
        kept = container_header(container)
        if container < len(sizes) or offset > CONTAINER_HEADER:
            kept = files[name][:offset]
        files[name] = kept + chunk


# Opening.


class Opened(NamedTuple):
    params: Params
    generation: int
    book: Book


def opened(files):
    """What opening finds. Raises a refusal if there is no store or a damage."""
    head = files.get("head", b"")
    if len(head) < OPEN_HEAD:
        raise Refusal("no store")
    params, generation = params_of(head[:SETTINGS]), len(head) - OPEN_HEAD
    if params is None or generation > MAX_GENERATION:
        raise Refusal("damaged head")
    records = len(files.get(f"seal.{generation}", b""))
    book = read_book(files.get(f"book.{generation}", b""), records, params.max)
    for number, needed in enumerate(sizes_of(book.lengths())):
        found = len(files.get(f"container.{generation}.{number}", b""))
        if found < needed:
            raise Refusal(f"damaged container {number} needs {needed} has {found}")
    return Opened(params, generation, book)


def chunk_reader(files, store):
    """Reads chunks by their numbers. Raises a refusal if one has another name than the book's."""
    spots = spots_of(store.book.lengths())

    def chunk(number):
        container, offset = spots[number]
        kept = store.book.chunks[number]
        file = files.get(f"container.{store.generation}.{container}", b"")
        found = file[offset : offset + kept.length]
        if (digest := sha256(found).digest()) != kept.name:
            names = f"kept {kept.name.hex()} found {digest.hex()}"
            raise Refusal(f"damaged chunk {number} {names}")
        return found

    return chunk


# Commands. Each takes the files and returns what it writes; `init`, `ingest` and `drop_session`
# change the files.


def init(files, params):
    if kind := bad_parameter(params):
        raise Refusal(f"bad parameter: {kind}")
    if len(files.get("head", b"")) >= OPEN_HEAD:
        raise Refusal("store already there")
    files.pop("seal.0", None)
    files["head"] = settings_of(params) + COMMIT
    return b"ready\n"


def chunks_of(params, text):
    chunks, start = [], 0
    for length in reference.lengths_of(params, text):
        chunks.append(text[start : start + length])
        start += length
    return chunks


def check_name(store, name):
    if name in store.book.live:
        raise Refusal("name taken")
    if len(store.book.sessions) >= MAX_SESSIONS:
        raise Refusal("too many sessions")


def numbered(files, store, chunks):
    """The number of each chunk, and the chunks that are new, in order."""
    named, read, count = defaultdict(list), chunk_reader(files, store), len(store.book.chunks)
    for number, kept in enumerate(store.book.chunks):
        named[kept.name].append(number)
    recipe, fresh = [], []
    for chunk in chunks:
        same = named[sha256(chunk).digest()]
        for number in same:
            if (read(number) if number < count else fresh[number - count]) == chunk:
                break
        else:
            number = count + len(fresh)
            fresh.append(chunk)
            same.append(number)
        recipe.append(number)
    return recipe, fresh


def record_of(files, store, name, text):
    """The record of an ingest, and its new chunks."""
    if len(text) > LONGEST_INPUT:
        raise Refusal("input too long")
    chunks = chunks_of(store.params, text)
    if store.book.places + len(chunks) > MAX_PLACES:
        raise Refusal("too many places")
    recipe, fresh = numbered(files, store, chunks)
    if len(store.book.chunks) + len(fresh) > MAX_CHUNKS:
        raise Refusal("too many chunks")
    kept = [NewChunk(len(it), sha256(it).digest()) for it in fresh]
    return Ingest(name, len(text), kept, recipe), fresh


def append_record(files, generation, used, record):
    book, seal = f"book.{generation}", f"seal.{generation}"
    files[book] = files.get(book, b"")[:used] + spelling_of(record)
    files[seal] = files.get(seal, b"") + COMMIT


def line_of(record):
    counts = f"{record.length} bytes {len(record.recipe)} places {len(record.fresh)} new"
    return f"ingested {record.name.decode()} {counts}\n".encode()


def ingest(files, name, text):
    store = opened(files)
    check_name(store, name)
    record, fresh = record_of(files, store, name, text)
    pack(files, store.generation, store.book.lengths(), fresh)
    append_record(files, store.generation, store.book.used, record)
    return line_of(record)


def list_sessions(files):
    book = opened(files).book
    lines = []
    for name, number in book.live.items():
        record = book.sessions[number]
        lines.append(f"{number} {name.decode()} {record.length} {len(record.recipe)}\n")
    return "".join(lines).encode()


def restore(files, name):
    store = opened(files)
    if name not in store.book.live:
        raise Refusal("no such session")
    written, read = [], chunk_reader(files, store)
    for number in store.book.sessions[store.book.live[name]].recipe:
        try:
            written.append(read(number))
        except Refusal as refusal:
            raise Refusal(refusal.note, b"".join(written)) from None
    return b"".join(written)


def drop_session(files, name):
    store = opened(files)
    if name not in store.book.live:
        raise Refusal("no such session")
    number = store.book.live[name]
    append_record(files, store.generation, store.book.used, Drop(number))
    places = len(store.book.sessions[number].recipe)
    return f"dropped {name.decode()} {places} places\n".encode()


def references(files):
    book = opened(files).book
    pairs = enumerate(zip(book.counts(), book.chunks))
    lines = (f"{number} {count} {it.length} {it.name.hex()}\n" for number, (count, it) in pairs)
    return "".join(lines).encode()


# Folders.


def files_in(folder):
    """The files of a folder. All are shown that have any bytes, those of other names too."""
    contents = {it.name: it.read_bytes() for it in Path(folder).iterdir()}
    return {name: content for name, content in contents.items() if content}


def write_files(folder, files):
    """Makes a folder that has these files and no others."""
    Path(folder).mkdir(exist_ok=True)
    for path in Path(folder).iterdir():
        path.unlink()
    for name, content in files.items():
        Path(folder, name).write_bytes(content)


# Known values.

ZEROS_64 = bytes.fromhex("f5a5fd42d16a20302798ef6ed309979b43003d2320d9f0e8ea9831a92759fb4b")
ZEROS_8 = bytes.fromhex("af5570f5a1810b7af78caf4bc70a660f0df51e42baf91d4de5b2328de0e83dfc")
KNOWN_HEAD = bytes.fromhex(
    "53534348 01 00 0d 00 8000000000000001 00000000 00000040 00000100 00000000 53"
)
KNOWN_DROP = bytes.fromhex(
    "44 00000004 00000000 ccfb74c7782fdfbebaf9fc2448a6a2a3abecce6280879ba3f8d305aa7e5fa4f6"
)
KNOWN_INGEST = (
    bytes.fromhex("49 00000066 01 61 000000c8 00000002 00000040")
    + ZEROS_64
    + bytes.fromhex("00000008")
    + ZEROS_8
    + bytes.fromhex("00000004 00000000 00000000 00000000 00000001")
    + bytes.fromhex("f4e41969 5150bf47 7aa7851d7e6103bf4f2bf8842ac035af9b781a7e1587d53c")
)
KNOWN_SPOTS = [
    ([64, 8], [(0, 8), (0, 72)]),
    ([MAX_CHUNK] * 4, [(0, 8), (0, 1048584), (0, 2097160), (1, 8)]),
    ([MAX_CHUNK] * 3 + [1048568, 1], [(0, 8), (0, 1048584), (0, 2097160), (0, 3145736), (1, 8)]),
]


def twice():
    """The files of a store that has 200 zeros as the sessions `a` and `b`."""
    files = {}
    init(files, SPARSE_ZERO)
    ingest(files, b"a", bytes(200))
    ingest(files, b"b", bytes(200))
    return files


def references_of_twice(whole, rest):
    """The lines of `refs` if the two chunks of `twice` have these counts."""
    return f"0 {whole} 64 {ZEROS_64.hex()}\n1 {rest} 8 {ZEROS_8.hex()}\n".encode()


def compare_twice():
    files = twice()
    compare("the head", KNOWN_HEAD, files["head"])
    compare("the seal", b"SS", files["seal.0"])
    compare("the container", b"SSCP" + bytes(4 + 64 + 8), files["container.0.0"])
    compare("the record of a", KNOWN_INGEST, files["book.0"][:139])
    compare("the length of the book", 139 + 67, len(files["book.0"]))
    compare("the list", b"0 a 200 4\n1 b 200 4\n", list_sessions(files))
    compare("what was taken in", bytes(200), restore(files, b"b"))
    compare("the references", references_of_twice(6, 2), references(files))
    compare("the drop", b"dropped a 4 places\n", drop_session(files, b"a"))
    compare("the record of the drop", KNOWN_DROP, files["book.0"][206:])
    compare("the references after it", references_of_twice(3, 1), references(files))
    compare("the list after it", b"1 b 200 4\n", list_sessions(files))


def compare_records():
    compare("the drop of session 0", KNOWN_DROP, spelling_of(Drop(0)))
    for record in (Drop(7), Ingest(b"x", 1, [NewChunk(1, ZEROS_8)], [0])):
        spelling = spelling_of(record)
        compare("a record", (record, len(spelling)), record_at(spelling + b"tail", 0))
        for length in range(len(spelling)):
            compare("a part of a record", None, record_at(spelling[:length], 0))


def self_test():
    """Raises a ValueError at the first value that does not come out as it is known."""
    compare_records()
    compare_twice()
    for lengths, spots in KNOWN_SPOTS:
        compare("the spots of chunks", spots, spots_of(lengths))


if __name__ == "__main__":
    self_test()
    print("the reference has the known values")
