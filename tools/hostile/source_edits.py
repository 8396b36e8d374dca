"""Random edits of COBOL sources: of tokens, lines and bytes. The sources, and the words that are inserted, are those of the rows."""
import glob
import os
import re
from collections import Counter
from functools import cache, lru_cache

from power_cuts.product import read

ROOT = os.path.dirname(os.path.dirname(os.path.dirname(os.path.abspath(__file__))))
FORMS = ("examples/*.cob", "rows/*/*.cob", "crates/acceptance/data/*.cob")
MOST_BYTES = 6000
MANY = 40
PIECE = re.compile(rb"\n|[ \t\r]+|\"[^\"\n]*\"?|'[^'\n]*'?|[A-Za-z0-9-]+|[^\s]")
NUMBERS = [b"0", b"1", b"2", b"7", b"18", b"19", b"49", b"66", b"77", b"88", b"99", b"160", b"1000", b"1001", b"65535", b"65536",
           b"1000001", b"999999999999999999", b"9999999999999999999", b"0.5", b"-1", b"+3", b"1.", b".5"]
PICTURES = [b"9(18)", b"9(19)", b"S9(4)V99", b"X(65535)", b"X(65536)", b"ZZ9.99CR", b"$$,$$9", b"+++9", b"XXBXX/X", b"A(3)", b"9(0)", b"X(",
            b"P9", b"9V9V9", b"*(3)9", b"Z(9)9(9)", b"X(1000)", b"X(1001)"]
BYTES = [b"\0", b"\t", b"\r", b"\x7f", b"\xe9", b"\xff", b"\n", b"-", b"*", b"D", b"(", b")", b'"', b"'", b".", b",", b";", b":", b"=",
         b"<"]


@cache
def sources():
    """All sources of rows that aren't long."""
    paths = sorted(path for form in FORMS for path in glob.glob(f"{ROOT}/{form}"))
    texts = [read(path) for path in paths]
    return [(path, text) for path, text in zip(paths, texts) if len(text) <= MOST_BYTES]


@lru_cache(maxsize=1)
def pieces_of(text):
    """The pieces of a source, and the places of those that aren't space. An empty source has an empty piece."""
    pieces = PIECE.findall(text) or [b""]
    return pieces, [i for i, piece in enumerate(pieces) if not piece.isspace()] or [0]


@cache
def words():
    """The different pieces of all sources."""
    return sorted({piece for _, text in sources() for piece in PIECE.findall(text) if not piece.isspace()})


@cache
def common_words():
    """The words of COBOL: pieces that are in many sources."""
    counts = Counter(piece for _, text in sources() for piece in set(PIECE.findall(text)))
    return {piece for piece, count in counts.items() if count >= MANY}


class SourceEdit:
    """One to four edits of a source."""

    def __init__(self, random, text):
        self.random = random
        pieces, self.places = pieces_of(text)
        self.pieces = list(pieces)

    def make(self):
        """The edited text."""
        kinds = [self.delete, self.swap, self.swap_near, self.insert, self.replace, self.take_own, self.double, self.nest]
        kinds += [self.number, self.picture] * 3 + [self.rename] * 4
        for _ in range(self.random.choice([1, 1, 1, 1, 2, 3])):
            self.random.choice(kinds)()
        text = b"".join(self.pieces)
        if self.random.random() < 0.25:
            text = self.random.choice([self.change_byte, self.insert_byte, self.change_lines, self.change_lines, self.join, self.cut])(text)
        return text

    def place(self):
        """Where a token is, more often in the second half."""
        first = len(self.places) // 3 if self.random.random() < 0.6 else 0
        return self.places[self.random.randrange(first, len(self.places))]

    # Tokens

    def delete(self):
        self.pieces[self.place()] = b""

    def swap(self):
        one, two = self.place(), self.place()
        self.pieces[one], self.pieces[two] = self.pieces[two], self.pieces[one]

    def swap_near(self):
        at = self.random.randrange(len(self.places))
        one, two = self.places[at], self.places[min(at + 1, len(self.places) - 1)]
        self.pieces[one], self.pieces[two] = self.pieces[two], self.pieces[one]

    def insert(self):
        self.pieces[self.place()] += b" " + self.random.choice(words())

    def replace(self):
        self.pieces[self.place()] = self.random.choice(words())

    def take_own(self):
        """A token is another one of the source."""
        self.pieces[self.place()] = self.pieces[self.place()]

    def rename(self):
        """A name or a literal is another one of the source."""
        others = [i for i in self.places if self.pieces[i] not in common_words()]
        names = [i for i in others if self.pieces[i][:1].isalnum() or self.pieces[i][:1] == b'"']
        if names:
            self.pieces[self.random.choice(names)] = self.pieces[self.random.choice(names)]

    def double(self):
        at = self.place()
        self.pieces[at] += b" " + self.pieces[at]

    def number(self):
        numbers = [i for i in self.places if self.pieces[i].isdigit()] or self.places
        self.pieces[self.random.choice(numbers)] = self.random.choice(NUMBERS)

    def picture(self):
        at = next((i for i in self.places if self.pieces[i].upper() in (b"PIC", b"PICTURE") and self.random.random() < 0.4), None)
        if at is not None and at + 2 < len(self.pieces):
            self.pieces[at + 2] = self.random.choice(PICTURES) + self.random.choice([b"", b"", b" COMP", b" OCCURS 3", b" VALUE 1"])

    def nest(self):
        """A token many times, one to a line, so that constructs nest."""
        at = self.place()
        self.pieces[at] = (self.pieces[at] + b"\n           ") * self.random.choice([2, 3, 63, 64, 65, 200]) + self.pieces[at]

    # Bytes and lines

    def change_byte(self, text):
        at = self.random.randrange(len(text) + 1)
        return text[:at] + bytes([self.random.randrange(256)]) + text[at + 1:]

    def insert_byte(self, text):
        at = self.random.randrange(len(text) + 1)
        return text[:at] + self.random.choice(BYTES) * self.random.choice([1, 1, 2, 80]) + text[at:]

    def change_lines(self, text):
        """Lines are left out, doubled, or change places."""
        lines = text.splitlines(True) or [b""]
        one, two = sorted(self.random.randrange(len(lines)) for _ in range(2))
        kind = self.random.randrange(4)
        if kind == 0:
            del lines[one:min(two + 1, one + 3)]
        elif kind == 1:
            lines[two:two] = lines[one:one + 3]
        elif kind == 2:
            lines[one], lines[two] = lines[two], lines[one]
        else:
            lines[one] = lines[one][:6] + self.random.choice([b"-", b"*", b"D", b"/", b"x", b" "]) + lines[one][7:]
        return b"".join(lines)

    def join(self, text):
        """The beginning of this source and the end of another one."""
        other = self.random.choice(sources())[1]
        return text[:self.random.randrange(len(text) + 1)] + other[self.random.randrange(len(other) + 1):]

    def cut(self, text):
        return text[:self.random.randrange(len(text) + 1)]
