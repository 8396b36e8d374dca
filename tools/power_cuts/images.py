"""What a power cut may leave of a volume.

Each sector holds what it held at the last successful sync, or anything that was written to it since. A write that failed counts as
perhaps written. After a sync that failed the host may take for written what it has dropped: the sectors written before it are in
doubt, whatever is synced later, until they are written again and synced.

`Disk` follows the calls of a run, and chooses images: each is the sectors in which it differs from what the host file at `path`
holds at any time but within `holding`, which is what the program reads if it has written nothing since the last sync."""
import os
from contextlib import contextmanager
from hashlib import blake2b

from power_cuts.trace import Sync, Write
from power_cuts.volume import SECTOR


def sum_of_sector(sector, text):
    return int.from_bytes(blake2b(text, digest_size=16, salt=sector.to_bytes(4, "big")).digest(), "big")


class Disk:
    """`pending` has what was written to sectors since the last sync, `doubtful` what sectors in doubt may hold instead."""

    def __init__(self, path, random, doubtful):
        self.file, self.random = os.open(path, os.O_RDWR), random
        self.pending, self.doubtful, self.sum = {}, dict(doubtful), 0

    def close(self):
        os.close(self.file)

    def stable(self, sector):
        return os.pread(self.file, SECTOR, SECTOR * sector)

    def put(self, sectors):
        for sector, text in sectors.items():
            os.pwrite(self.file, text, SECTOR * sector)

    def follow(self, event):
        if isinstance(event, Write):
            self.pending.setdefault(event.sector, []).append(event.text)
        elif isinstance(event, Sync):
            for sector, texts in self.pending.items():
                before = self.doubtful.pop(sector, []) + [self.stable(sector), *texts[:-1]]
                if not event.is_done:
                    self.doubtful[sector] = before
            self.sum = self.sum_of(self.newest())
            self.put(self.newest())
            self.pending = {}

    def left_in_doubt(self, path):
        """The sectors in doubt after the run, of which the host file at this path holds what a reader sees."""
        with open(path, "rb") as file:
            doubtful = dict(self.doubtful)
            for sector, texts in self.pending.items():
                doubtful[sector] = doubtful.get(sector, []) + [self.stable(sector), *texts]
            for sector, texts in doubtful.items():
                file.seek(SECTOR * sector)
                seen = file.read(SECTOR)
                doubtful[sector] = [text for text in texts if text != seen]
        return doubtful

    def sum_of(self, image):
        """A sum of an image's content, by which equal images are known."""
        total = self.sum
        for sector, text in image.items():
            total ^= sum_of_sector(sector, text) ^ sum_of_sector(sector, self.stable(sector))
        return total

    def newest(self):
        """What a reader sees now, if no write failed."""
        return {sector: texts[-1] for sector, texts in self.pending.items()}

    def images(self):
        """Images of this moment: all old, all new, each write alone, each but one, and random choices."""
        newest = self.newest()
        yield {}
        yield newest
        for sector, texts in self.some(self.pending.items()):
            for text in texts:
                yield {sector: text}
        for but, _ in self.some(self.pending.items()):
            yield {sector: text for sector, text in newest.items() if sector != but}
        for sector in self.doubtful.keys() & {0, 1}:
            for text in self.doubtful[sector]:
                yield {sector: text}
                yield {**newest, sector: text}
        for _ in range(min(3, len(newest) + len(self.doubtful))):
            yield self.random_image()

    def some(self, writes, most=12):
        """All writes, or so many chosen ones."""
        writes = list(writes)
        return writes if len(writes) <= most else self.random.sample(writes, most)

    def random_image(self):
        chosen = {}
        for sector in {**self.pending, **self.doubtful}:
            texts = self.pending.get(sector, []) + self.doubtful.get(sector, [])
            one = self.random.randrange(len(texts) + 1)
            if one:
                chosen[sector] = texts[one - 1]
        return chosen

    @contextmanager
    def holding(self, image):
        """The host file holds this image for a while."""
        before = {sector: self.stable(sector) for sector in image}
        self.put(image)
        try:
            yield
        finally:
            self.put(before)
