#!/usr/bin/env python3
"""event_kw.py FILE PLACE: the baseline of one event of a record file, in kW, a line a quarter.

Over the shared library, with Python's own ctypes. The library is build/lib/libhoneyplank.so of this tree where that is built, else the
installed one; HONEYPLANK_LIBRARY names another. Exit status: 0 answered, 1 refused, 2 for a wrong call or a file that can't be read."""
import ctypes
import os
import pathlib
import sys
from ctypes import POINTER, c_char, c_char_p, c_int64, c_size_t, c_uint32

# From honeyplank.h
VERSION_NUMBER, MOST_BYTES, MOST_FILE, QUARTERS = 700, 384, 50536, 96
NOTHING = -2**63
CARRIED, CARRIED_SECOND, DENOMINATOR, EVENT_START, EVENT_END = 1, 2, 10, 18, 19
BYTES = [c_char_p, c_size_t]


def stop(why):
    print(f'event_kw.py: {why}', file=sys.stderr)
    sys.exit(2)


def load():
    """The shared library, with the types of the entries that are used here."""
    built = pathlib.Path(__file__).resolve().parents[1] / 'build/lib/libhoneyplank.so'
    try:
        library = ctypes.CDLL(os.environ.get('HONEYPLANK_LIBRARY') or (str(built) if built.exists() else 'libhoneyplank.so.0.7'))
    except OSError as reason:
        stop(f'there is no shared library: {reason}; `make` builds it')
    library.hp_version.restype = c_uint32
    library.hp_baseline.restype = c_uint32
    library.hp_baseline.argtypes = BYTES + [c_size_t, POINTER(c_char), c_size_t]
    for entry in library.hp_told, library.hp_event:
        entry.restype = c_int64
        entry.argtypes = BYTES + [c_size_t, c_uint32]
    if library.hp_version() // 100 != VERSION_NUMBER // 100:  # before 1.0.0 another second number may break callers
        stop(f'the library is of version {library.hp_version()}, and this program for {VERSION_NUMBER}')
    return library


def lines(library, file, place):
    """A line a quarter, or the number of the refusal with what it carries."""
    out = ctypes.create_string_buffer(MOST_BYTES)
    refused = library.hp_baseline(file, len(file), place, out, len(out))
    if refused:
        carried = [library.hp_told(file, len(file), place, name) for name in (CARRIED, CARRIED_SECOND)]
        return None, [refused] + [number for number in carried if number != NOTHING]
    start, end = (library.hp_event(file, len(file), place, name) for name in (EVENT_START, EVENT_END))
    over = library.hp_told(file, len(file), place, DENOMINATOR)
    numerators = [int.from_bytes(out.raw[i:i + 4], 'little') for i in range(0, 4 * (end - start), 4)]
    minutes = [60 + 15 * (t - QUARTERS) for t in range(start, end)]  # the event day starts at 96, and at 01:00
    return [f'{m // 60 % 24:02}:{m % 60:02} {(2 * n + over) // (2 * over)} kW' for m, n in zip(minutes, numerators)], None


def main(words):
    if words in (['-h'], ['--help']):
        print(__doc__)
        return 0
    if len(words) != 2 or not (words[1].isascii() and words[1].isdigit()):
        print('usage: event_kw.py FILE PLACE', file=sys.stderr)
        return 2
    try:
        with open(words[0], 'rb') as source:
            file = source.read(MOST_FILE + 1)  # one byte more than the longest record file, so that a longer one is refused
    except OSError as reason:
        print(f'{words[0]}: {reason.strerror}', file=sys.stderr)
        return 2
    quarters, refusal = lines(load(), file, min(int(words[1]), 2**64 - 1))
    if refusal:
        print('refused', *refusal, file=sys.stderr)
        return 1
    print(*quarters, sep='\n')
    return 0


sys.exit(main(sys.argv[1:]))
