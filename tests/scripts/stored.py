"""The files that a make.py writes, always the same."""


def shortened(script):
    """For an index."""
    text = script.replace("\n", "; ")
    return text if len(text) <= 160 else text[:120] + " .. (%d characters)" % len(text)


def differ(path, data):
    """Whether the file is missing or holds something else."""
    try:
        with open(path, "rb") as file:
            return file.read() != data
    except FileNotFoundError:
        return True


def settle(files, only_check):
    """Writes the files that are not as they should be, or says which they are."""
    old = [path for path, data in files.items() if differ(path, data)]
    if only_check:
        if old:
            raise SystemExit("not what make.py writes: " + ", ".join(old))
        return
    for path in old:
        with open(path, "wb") as file:
            file.write(files[path])
