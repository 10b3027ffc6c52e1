"""A recorder: appends records to a file of a volume and syncs each, or each so many, until it is killed; then says which records are there.

    recorder.py USE PATH IMAGE append EACH   appends for ever; prints how many records are synced each time that they are
    recorder.py USE PATH IMAGE count         prints how many records stand in the file, each whole and in order

USE is `program`, and PATH the program lfs, or `library`, and PATH the shared object.
"""
import sys

import pansuyog

RECORDS = "/records"
RECORD = 32


def mounted(use, path, image):
    return pansuyog.ProcessVolume(image, path) if use == "program" else pansuyog.Volume(image, library=path)


def record(number):
    """The bytes of a record: its number in ten digits, and a text that depends on it."""
    return (f"{number:010d} " + "abcdefghijklmnopqrstuvwxyz"[number % 26] * (RECORD - 12)).encode() + b"\n"


def opened(volume):
    """The records' handle, and how many stand there."""
    try:
        return volume.open(RECORDS), volume.stat(RECORDS).size // RECORD
    except pansuyog.NoEntry:
        return volume.create(RECORDS), 0


def append(volume, each):
    handle, number = opened(volume)
    while True:
        volume.pwrite(handle, number * RECORD, record(number))
        number += 1
        if number % each == 0:
            volume.sync()
            print(number, flush=True)


def count(volume):
    handle, number = opened(volume)
    for at in range(number):
        if volume.pread(handle, at * RECORD, RECORD) != record(at):
            sys.exit(f"record {at} isn't whole")
    print(number)


def main(use, path, image, word, each="1"):
    with mounted(use, path, image) as volume:
        if word == "append":
            append(volume, int(each))
        else:
            count(volume)


if __name__ == "__main__":
    main(*sys.argv[1:])
