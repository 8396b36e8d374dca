"""Whether a volume holds the files that the model says: by the program's `list` and `dump`, and by the reader of the format."""
from collections import namedtuple

from power_cuts.product import Failure, Ran
from power_cuts.volume import Damaged, listing, read_volume

# What a volume was found to hold: what `list` printed, what `dump` printed of each name, and the reader's files, None if damaged.
# `refused` is the exit status and the error of a command that refused, else None.
Found = namedtuple("Found", "refused listing dumps files")
NOT_TEXT = Ran(2, b"", b"error: an argument isn't text\n")


def examine(product, path):
    """What the program and the reader find on a volume. Both must find the same."""
    files = files_of(path)
    ran = product.do("list", path)
    if ran.status:
        found = Found((ran.status, ran.err), None, None, files)
        if files is not None or found.refused != (4, b"refused 82\n") or ran.out:
            raise Failure(f"list: {ran.status} {ran.err} {ran.out[:200]}, the reader: {summary(files)}")
        return found
    if files is None:
        raise Failure(f"the reader says damaged, and list prints {ran.out[:400]}")
    names = [unprinted(line.rsplit(b" ", 3)[0]) for line in ran.out.splitlines()]
    dumps = [dump(product, path, name) for name in names]
    found = Found(None, ran.out, [it.out for it in dumps], files)
    if any(it.status or it.err for it in dumps) or found.listing != listing(files) or found.dumps != [it.dump for it in files]:
        raise Failure(f"list and dump: {ran.out[:400]} {[(it.status, it.err, it.out[:200]) for it in dumps]}, the reader: {summary(files)}")
    return found


def dump(product, path, name):
    """What `dump` prints of a file. A name that isn't text, which no program gives to a file, can't be asked for: then it is what the
    reader says."""
    ran = product.do("dump", "--", path, name)
    try:
        name.decode()
    except UnicodeDecodeError:
        if ran == NOT_TEXT:
            return Ran(0, next(file.dump for file in files_of(path) if file.name == name), b"")
    return ran


def files_of(path):
    try:
        return read_volume(path)
    except Damaged:
        return None


def unprinted(text):
    """The bytes of a name that `list` printed."""
    parts = text.split(b"\\\\")
    for i, part in enumerate(parts):
        first, *more = part.split(b"\\x")
        parts[i] = first + b"".join(bytes([int(it[:2], 16)]) + it[2:] for it in more)
    return b"\\".join(parts)


def essence(files):
    """What the model fixes of files: all but the numbers of arrivals, of which only the order counts."""
    return tuple(essence_of(file) for file in files)


def essence_of(file):
    is_sequential = file.description.kind == "sequential"
    rows = [row._replace(prime=i) for i, row in enumerate(file.rows)] if is_sequential else file.rows
    orders = tuple(tuple(row.prime for row in sorted(rows, key=lambda row: (key.of(row.record), row.arrivals[i])))
                   for i, key in enumerate(file.description.alternates))
    return file.name, file.description, tuple((row.prime, row.record) for row in rows), orders


def holds(found, content):
    """Whether the files that were found are these."""
    if found.refused:
        return False
    printed = found.listing == listing(content) and found.dumps == [file.dump for file in content]
    return printed and essence(found.files) == essence(content)


def summary(files):
    return "damaged" if files is None else listing(files)[:400]
