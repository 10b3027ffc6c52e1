"""Keeps records of 64 bytes, each of which begins with its day, in a file a day:
    days.py IMAGE FOLDER < RECORDS
The volume keeps forty days before the present one, and the folder gets a copy of each."""
import os
import re
import sys

from pansuyog import NoEntry, NoSpace, Volume

RECORD, EACH, KEPT = 64, 6, 40
DAY = re.compile(rb"\d{4}-\d\d-\d\d")


class Days:
    """The files of a mounted volume, which are named by their days."""

    def __init__(self, volume, folder, each=EACH, kept=KEPT):
        self.volume, self.folder, self.each, self.kept = volume, folder, each, kept
        self.day, self.handle, self.end, self.waiting = None, None, 0, 0

    def save(self, record):
        """Takes a record. After True no stop takes it away, nor one before it."""
        if record[:10] != self.day:
            self.turn_to(record[:10])
        self.end += self.with_room(self.volume.pwrite, self.handle, self.end, record)
        self.waiting += 1
        if self.waiting < self.each:
            return False
        self.sync()
        return True

    def sync(self):
        self.volume.sync()
        self.waiting = 0

    def rest(self):
        """Cleans in an idle moment, a pass at a time, so that no record waits for it."""
        while self.volume.is_cleaning_due():
            self.volume.clean_once()

    def turn_to(self, day):
        """Goes on with the file of a day. The others are copied out, and the oldest ones go."""
        if self.waiting:
            self.sync()
        if self.day is not None:
            self.volume.close_handle(self.handle)
        self.day = day
        for old in self.others():
            self.copy_out(os.fsdecode(old))
        for old in self.others()[: -self.kept]:
            self.volume.unlink(b"/" + old)
        self.handle = self.with_room(self.opened, b"/" + day)
        self.end = self.volume.stat(b"/" + day).size

    def others(self):
        """The days on the volume but the present one, the oldest first."""
        names = (entry.name for entry in self.volume.readdir("/"))
        return [name for name in names if DAY.fullmatch(name) and name != self.day]

    def opened(self, path):
        try:
            return self.volume.open(path)
        except NoEntry:
            return self.volume.create(path)

    def with_room(self, call, *arguments):
        """Makes a call. As long as there is no space for it the oldest day goes."""
        while True:
            try:
                return call(*arguments)
            except NoSpace:
                oldest = self.others()[:1]
                if not oldest:
                    raise
                self.volume.unlink(b"/" + oldest[0])

    def copy_out(self, day):
        """Copies a day that the folder hasn't got. Where that fails the next day tries again."""
        copy = os.path.join(self.folder, day)
        if os.path.exists(copy):
            return
        try:
            with open(f"{copy}.part", "wb") as file:
                file.write(self.volume.read(f"/{day}"))
                file.flush()
                os.fsync(file.fileno())
            os.rename(f"{copy}.part", copy)
        except OSError as why:
            print(why, file=sys.stderr)


def main(image, folder):
    with Volume(image) as volume:
        days = Days(volume, folder)
        for record in iter(lambda: sys.stdin.buffer.read(RECORD), b""):
            if days.save(record):
                days.rest()
        days.sync()


if __name__ == "__main__":
    main(*sys.argv[1:])
