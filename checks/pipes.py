"""Pipes, and limits under which the program is run, for tests of several subjects."""

import fcntl
import os
import resource
import signal
from contextlib import contextmanager, suppress
from threading import Thread

from harness import Mismatch


@contextmanager
def pipe():
    """A pipe, open at both ends."""
    reader, writer = os.pipe2(os.O_CLOEXEC)
    with open(reader, "rb", buffering=0) as source, open(writer, "wb", buffering=0) as sink:
        yield source, sink


def set_non_blocking(file):
    flags = fcntl.fcntl(file, fcntl.F_GETFL)
    fcntl.fcntl(file, fcntl.F_SETFL, flags | os.O_NONBLOCK)


def in_background(function):
    thread = Thread(target=function, daemon=True)
    thread.start()
    return thread


def trickle(text):
    """Opens a pipe from which each read takes one byte."""
    reader, writer = os.pipe2(os.O_DIRECT | os.O_CLOEXEC)

    def write():
        with suppress(BrokenPipeError), open(writer, "wb", buffering=0) as sink:
            for byte in text:
                sink.write(bytes([byte]))

    in_background(write)
    return open(reader, "rb", buffering=0)


def expect_part(wanted, written):
    """Expects some of the text from its start on, and not the whole of it."""
    if not written or written == wanted or not wanted.startswith(written):
        raise Mismatch(f"wanted a part of the text from its start, came {written[:200]}")


def with_memory(kibibytes):
    """A starter that lets the program have no more memory than this."""
    return ("sh", "-c", 'ulimit -v "$0"; exec "$@"', str(kibibytes))


def limiting_files(length):
    """Lets no file get longer than this. A write beyond it fails, since the signal is ignored."""

    def limit():
        signal.signal(signal.SIGXFSZ, signal.SIG_IGN)
        resource.setrlimit(resource.RLIMIT_FSIZE, (length, length))

    return limit
