#!/usr/bin/env python3
"""The sums of the pages of a database, as SQLite's cksumvfs has them (https://sqlite.org/cksumvfs.html), and connections
of Python's sqlite3, which knows none, that leave them right.

    page_sums.py FILE ..        makes the sums of closed files anew where they are wrong, and says how many were"""
import contextlib
import os
import sqlite3
import struct
import sys

RESERVED = 20  # which byte of the header tells how many bytes at the end of each page hold no rows
SUM = 8  # of how many bytes a sum is
WORDS = 0xFFFFFFFF


def sum_of(content):
    """The sum of a page without its last eight bytes: two words, each of which takes in every other word and the other
    sum, from the least byte on."""
    first = second = 0
    words = iter(struct.unpack(f"<{len(content) // 4}I", content))
    for one, other in zip(words, words):
        first = first + one + second & WORDS
        second = second + other + first & WORDS
    return struct.pack("<II", first, second)


def pages_of(path):
    """The pages of a file that has sums. One without has none."""
    with open(path, "rb") as file:
        content = file.read()
    if content[RESERVED:RESERVED + 1] != bytes([SUM]):
        return []
    size = int.from_bytes(content[16:18], "big")
    size = 65536 if size == 1 else size
    return [content[start:start + size] for start in range(0, len(content), size)]


def wrong_sums(pages):
    """The places of the pages whose sums are wrong."""
    return [place for place, page in enumerate(pages) if page[-SUM:] != sum_of(page[:-SUM])]


def renew(path):
    """Makes the sums of a closed file anew where they are wrong, if it has some, and gives how many were."""
    pages = pages_of(path)
    wrong = wrong_sums(pages)
    if wrong:
        with open(path, "r+b") as file:
            for place in wrong:
                file.seek(place * len(pages[0]))
                file.write(pages[place][:-SUM] + sum_of(pages[place][:-SUM]))
    return len(wrong)


class Connection(sqlite3.Connection):
    """A connection to a file. When it is closed, the sums of the pages are made anew: SQLite writes none."""
    path = None

    def close(self):
        super().close()
        if self.path is not None and os.path.exists(self.path):
            renew(self.path)


def connect(path, **more):
    connection = sqlite3.connect(path, factory=Connection, **more)
    connection.path = path
    return connection


def copy_without(path, to):
    """Makes a file of the tables and rows of another, under the same numbers, whose pages have no sums."""
    with contextlib.closing(sqlite3.connect(to, isolation_level=None)) as connection:
        connection.execute("ATTACH ? AS other", (path,))
        tables = "SELECT name, sql FROM other.sqlite_master WHERE type = 'table' ORDER BY rowid"
        for name, text in connection.execute(tables).fetchall():
            connection.execute(text)
            columns = ", ".join(column for _, column, *_ in connection.execute(f"PRAGMA table_info({name})").fetchall())
            connection.execute(f"INSERT INTO main.{name} (rowid, {columns}) SELECT rowid, {columns} FROM other.{name}")
    return to


if __name__ == "__main__":
    for name in sys.argv[1:]:
        print(f"{name}: {renew(name)} sums were wrong")
