"""What a command reads, writes and runs. Bytes that are no UTF-8 go through its texts unchanged.

It loads `os` alone: `subprocess` and `signal` take longer to load than the programs take for a small file.
"""

from __future__ import annotations

import os
import sys

from .errors import MissingProgram

KILL = 9


def as_text(data: bytes) -> str:
    return data.decode("utf-8", "surrogateescape")


def as_bytes(text: str) -> bytes:
    return text.encode("utf-8", "surrogateescape")


def run(command: list[str], text: str, is_heard: bool = True) -> tuple[int, str]:
    """The status of a program, as a shell has it, and what it writes, with its standard error or without. An exception ends it.

    Its input is a file in memory, so it may write before it has read all.
    """
    given = os.memfd_create("given")
    _write(given, text)
    os.lseek(given, 0, os.SEEK_SET)
    reading, writing = os.pipe()
    places: list[tuple[object, ...]] = [(os.POSIX_SPAWN_DUP2, given, 0), (os.POSIX_SPAWN_DUP2, writing, 1)]
    if not is_heard:
        places.append((os.POSIX_SPAWN_OPEN, 2, os.devnull, os.O_WRONLY, 0))
    try:
        process = os.posix_spawn(command[0], command, os.environ, file_actions=places)
    except OSError as fault:
        raise MissingProgram(f"{command[0]} can't be run ({fault.strerror}), so there is no answer") from None
    finally:
        os.close(given)
        os.close(writing)
    try:
        with open(reading, "rb") as file:
            written = as_text(file.read())
    except BaseException:
        os.kill(process, KILL)
        os.waitpid(process, 0)
        raise
    status = os.waitstatus_to_exitcode(os.waitpid(process, 0)[1])
    return status if status >= 0 else 128 - status, written


def end_by_signals() -> None:
    """From here on a signal that ends this process ends its program too, as an interrupt does."""
    import signal

    for number in (signal.SIGHUP, signal.SIGTERM):
        if signal.getsignal(number) is signal.SIG_DFL:
            signal.signal(number, lambda number, _: sys.exit(128 + number))


def put(text: str) -> int:
    """Writes to standard output. The status is 5 where that fails."""
    try:
        _write(1, text)
    except BrokenPipeError:
        return 5
    except OSError as fault:
        say(f"standard output can't be written: {fault.strerror}")
        return 5
    return 0


def say(*lines: str) -> None:
    """Writes lines of ./ask to standard error."""
    show(*(f"ask: {line}" for line in lines))


def show(*lines: str) -> None:
    """Writes lines to standard error, if that can be written."""
    try:
        _write(2, "".join(line + "\n" for line in lines))
    except OSError:
        pass


def _write(place: int, text: str) -> None:
    left = as_bytes(text)
    while left:
        left = left[os.write(place, left) :]
