"""A device whose power goes, for tests: it stands over an image, for `Volume.over`, and notes what isn't synced.

    device = Device(image, random.Random(1))
    device.stop_behind(100)        raises Stopped behind so many more orders: writes of a sector, and syncs
    ..
    device.cut()                   leaves each sector that wasn't synced as the device model says
"""
import os
import weakref

SECTOR = 512
OLD, NEW, UNREADABLE, EACH_ITS_OWN = range(4)


class Stopped(Exception):
    """The power went. No more orders reach the device."""


class Device:
    """The sectors of an image, and what they have since the last sync. A write goes to the image at once, and `cut` takes back what a stop
    may. A sync costs nothing."""

    def __init__(self, image, chance):
        self.image, self.chance = image, chance
        self._file = os.open(image, os.O_RDWR | os.O_CLOEXEC)
        weakref.finalize(self, os.close, self._file)
        self.writes, self.syncs, self.last = 0, 0, None
        # The bytes of each sector that was written since the last sync: those from before, if they could be read, and those of each write.
        self.unsynced = {}
        self.unreadable = set()

    def orders(self):
        return self.writes + self.syncs

    def stop_behind(self, orders):
        """The power goes behind so many more orders."""
        self.last = self.orders() + orders

    def sectors(self):
        return os.lseek(self._file, 0, os.SEEK_END) // SECTOR

    def read(self, first, count):
        """Reads up to the first sector that can't be read, as the system does."""
        good = next((it for it in range(first, first + count) if it in self.unreadable), first + count)
        if good == first:
            raise OSError("the sector can't be read")
        return os.pread(self._file, SECTOR * (good - first), SECTOR * first)

    def write(self, first, data):
        self._go_on()
        sectors = len(data) // SECTOR
        carried = sectors if self.last is None else min(sectors, self.last - self.orders())
        before = os.pread(self._file, len(data), SECTOR * first)
        for at in range(sectors):
            # Of the writes behind a stop some were begun.
            if at < carried or self.chance.randrange(3):
                part = slice(SECTOR * at, SECTOR * (at + 1))
                self._note(first + at, before[part], data[part])
            else:
                data = data[: SECTOR * at] + before[SECTOR * at :][:SECTOR] + data[SECTOR * (at + 1) :]
        os.pwrite(self._file, data, SECTOR * first)
        self.writes += carried
        self._go_on()

    def sync(self):
        self._go_on()
        self.unsynced.clear()
        self.syncs += 1
        self._go_on()

    def cut(self, how=None):
        """Leaves each sector that wasn't synced old, new or unreadable, or each its own: how many such there were. The device goes on then."""
        how = self.chance.randrange(4) if how is None else how
        left, self.unsynced, self.last = self.unsynced, {}, None
        for sector, contents in left.items():
            kind = self.chance.randrange(3) if how == EACH_ITS_OWN else how
            data = contents[0] if kind == OLD else self.chance.choice(contents[1:]) if kind == NEW else None
            if data is None:
                self.unreadable.add(sector)
            else:
                os.pwrite(self._file, data, SECTOR * sector)
        return len(left)

    def _go_on(self):
        if self.last is not None and self.orders() >= self.last:
            raise Stopped

    def _note(self, sector, before, data):
        """Notes a write of a sector."""
        self.unsynced.setdefault(sector, [None if sector in self.unreadable else before]).append(data)
        self.unreadable.discard(sector)
