#!/usr/bin/env python3
"""office.py [--library FILE] [JOBS]

A planner's list of jobs to maps. Each line of JOBS (standard input if there is none) is a size and six counts:

    SIZE N1 N2 N3 N4 N5 N6

Empty lines and those that begin with # are left out. A line comes out for each job: the line's number, then the map in
hex, or REFUSED, the code, its number, and what it means; every side that is asked for too many nets is named with its
sum. Exit status 0: every job has a map; 1: some were refused; 2: wrong use, or a line that is no job, and then nothing
is written for it or what follows.

The library is the shared one of `make install`, by its soname, or FILE.
"""
import ctypes
import sys

DONE = 0
OVERFULL = 3
SIDES = ("left", "top", "right", "bottom")
MOST_MAP = 48
SERIES = 5  # the second number of the version that this program was written for
SONAME = f"libylvanteri_frame.so.0.{SERIES}"


class Frame:
    """The part of the shared library that is used here."""

    def __init__(self, file):
        library = ctypes.CDLL(file)
        if library.frame_version() // 100 != SERIES:
            raise OSError(f"{file}: version {library.frame_version()}, and not 0.{SERIES}")
        self._route = library.frame_route
        numbers = ctypes.POINTER(ctypes.c_uint32)
        self._route.argtypes = [ctypes.c_uint16] * 7 + [ctypes.c_char_p, ctypes.c_size_t, numbers, numbers]
        self._route.restype = ctypes.c_uint32
        self._text = library.frame_code_text
        self._text.argtypes = [ctypes.c_uint32]
        self._text.restype = ctypes.c_char_p
        self._room = ctypes.create_string_buffer(MOST_MAP)
        self._sums = (ctypes.c_uint32 * 4)()
        self._number = ctypes.c_uint32()

    def route(self, size, counts):
        """The code, the number, the four sums, and on done the map."""
        code = self._route(size, *counts, self._room, MOST_MAP, self._sums, ctypes.byref(self._number))
        length = (6 * size + 7) // 8 if code == DONE else 0
        return code, self._number.value, tuple(self._sums), self._room.raw[:length]

    def words(self, code, number, sums):
        """What a refusal means."""
        text = self._text(code).decode("ascii")
        if code != OVERFULL:
            return text
        overfull = [f"{SIDES[i]} {sums[i]}" for i in range(4) if number >> i & 1]
        return f"{text}: {', '.join(overfull)}"


def job(line):
    """A size and six counts. ctypes would cut a number that is too large without a word, so it is refused here."""
    numbers = [int(word) for word in line.split() if word.isascii() and word.isdigit()]
    if len(numbers) != 7 or len(line.split()) != 7 or max(numbers) > 65535:
        raise ValueError("not a size and six counts from 0 to 65535")
    return numbers[0], numbers[1:]


def plan(frame, lines, out):
    """Writes a line for each job; gives the number of refusals."""
    refused = 0
    for at, line in enumerate(lines, 1):
        if not line.strip() or line.startswith("#"):
            continue
        try:
            size, counts = job(line)
        except ValueError as fault:
            raise ValueError(f"line {at}: {fault}: {line.strip()}") from None
        code, number, sums, closed = frame.route(size, counts)
        if code == DONE:
            out.write(f"{at} {closed.hex(' ').upper()}\n")
        else:
            refused += 1
            out.write(f"{at} REFUSED {code} {number}: {frame.words(code, number, sums)}\n")
    return refused


def main(words):
    library = SONAME
    if words[:1] == ["--library"] and len(words) > 1:
        library, words = words[1], words[2:]
    if len(words) > 1 or (words and words[0].startswith("-")):
        print(__doc__, file=sys.stderr)
        return 2
    try:
        frame = Frame(library)
        with open(words[0], encoding="utf-8") if words else sys.stdin as lines:
            refused = plan(frame, lines, sys.stdout)
        sys.stdout.flush()
    except (OSError, ValueError) as fault:
        print(f"office.py: {fault}", file=sys.stderr)
        return 2
    return 1 if refused else 0


if __name__ == "__main__":
    sys.exit(main(sys.argv[1:]))
