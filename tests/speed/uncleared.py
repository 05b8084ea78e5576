#!/usr/bin/env python3
"""Reads the LLVM module of the library, and writes it without the calls by which the entry clears its rooms: see the script `library`."""
import re
import sys

FUNCTION = re.compile(r'^define [^\n]*@"entry::rooms::clear_(?:rooms|rest)"\(.*?^}$', re.M | re.S)
CLEARS = re.compile(r'^ +call void @"(?:numbers::room::clear|entry::rooms::trim)"\([^\n]*\n', re.M)
# Each of the two clears the four rooms, one by one.
CALLS = 8


def uncleared(module):
    dropped = 0

    def without(function):
        nonlocal dropped
        text, count = CLEARS.subn("", function[0])
        dropped += count
        return text
    module = FUNCTION.sub(without, module)
    if dropped != CALLS:
        sys.exit(f"tests/speed/library: the entry clears its rooms in another way now ({dropped} calls, and not {CALLS})")
    return module


if __name__ == "__main__":
    sys.stdout.write(uncleared(sys.stdin.read()))
