"""Random edits of images: of bytes, of numbers and of parts."""


class ImageEdit:
    """One to four edits of an image. `other` is an image from which parts are taken."""

    def __init__(self, random, text, other):
        self.random, self.text, self.other = random, bytearray(text), other

    def make(self):
        kinds = [self.change_byte] * 6 + [self.change_number] * 4 + [self.copy] * 2 + [self.swap, self.delete, self.insert, self.cut]
        for _ in range(self.random.choice([1, 1, 1, 2, 3, 4])):
            self.random.choice(kinds)()
        return bytes(self.text)

    def place(self):
        """A place after the mark, mostly."""
        first = 8 if len(self.text) > 8 and self.random.random() < 0.98 else 0
        return self.random.randrange(first, max(first + 1, len(self.text)))

    def change_byte(self):
        at = self.place()
        if at < len(self.text):
            self.text[at] = (self.text[at] + self.random.choice([1, 255, 2, 254, 128, self.random.randrange(1, 256)])) % 256

    def change_number(self):
        """A number of two, four or eight bytes is a near one, a small one, or a large one."""
        at, length = self.place(), self.random.choice([2, 4, 8])
        old = int.from_bytes(self.text[at:at + length], "big")
        new = self.random.choice([old + 1, old - 1, old + 2, 0, 1, 2, 256 ** length - 1, 2 * old, 1 << self.random.randrange(8 * length)])
        self.text[at:at + length] = (new % 256 ** length).to_bytes(length, "big")

    def part(self, text):
        length = self.random.choice([1, 2, 4, 5, 8, 9, 13, 17, 25])
        at = self.random.randrange(len(text) + 1)
        return text[at:at + length]

    def copy(self):
        """Bytes of another place, or of another image, are here too."""
        part = self.part(self.random.choice([self.text, self.other]))
        at = self.place()
        self.text[at:at + len(part)] = part

    def swap(self):
        one, two, length = self.place(), self.place(), self.random.choice([1, 5, 9])
        first, second = self.text[one:one + length], self.text[two:two + length]
        self.text[one:one + length], self.text[two:two + length] = second, first

    def delete(self):
        at = self.place()
        del self.text[at:at + self.random.choice([1, 1, 5, 9, 17])]

    def insert(self):
        at = self.place()
        self.text[at:at] = self.part(self.random.choice([self.text, self.other]))

    def cut(self):
        """The image ends here, or in another image's way."""
        at = self.place()
        self.text[at:] = self.random.choice([b"", self.other[self.random.randrange(len(self.other) + 1):]])
