"""Asking a program, and the original's runner, for many answers at once."""
import hashlib
import subprocess
import sys


def counted(data):
    """A table after its length."""
    return len(data).to_bytes(4, "little") + data


def blocks(command, stream, count):
    """The lines of each answer to a stream, without its number."""
    run = subprocess.run(command, input=stream, stdout=subprocess.PIPE, check=True)
    found = run.stdout.decode().split("\n\n")[:-1]
    if len(found) != count:
        sys.exit("%s: %d answers to %d questions" % (command[0], len(found), count))
    return [block.split("\n")[1:] for block in found]


def of_original(lines):
    """The original's answer as our programs print it, and whether document 01 wants the two to agree."""
    notes = [line for line in lines if line.startswith("note ")]
    lines = [line.rsplit(" |", 1)[0] if line.startswith("goal ") else line for line in lines if not line.startswith("note ")]
    outside = any(note.startswith(("note outside", "note table-test")) for note in notes)
    return lines, not outside and not lines[0].startswith("refused 7 ")


def digest(parts):
    return hashlib.sha256(b"".join(parts)).hexdigest()[:32]


def read_stored(path):
    """The digests of each batch: of what was asked, and of the answers."""
    with open(path) as file:
        return {name: (asked, answered) for name, asked, answered in (line.split() for line in file if not line.startswith("#"))}
