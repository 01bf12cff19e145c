#!/usr/bin/env python3
"""Turns single bits in a file whose pages have sums: each command refuses the file, or the records are the same as
before. Each bit of the file's header is turned, 1600 bits that are spread over the file, and then others for a minute,
or as many as are asked for.

    turned-bits.py PROGRAM SHIM [COUNT]

PROGRAM is the built program, SHIM the library of set_clock.c, which shows it one moment, and COUNT how many bits are
turned in all, in place of a minute.

The file is that of the check damaged-rows, with a validation of each of two accounts. `accounts` opens a copy of each
file with a turned bit. Where it takes the file, all that the two accounts read is compared with what they read before,
and so are all rows, as SQLite reads them. What this can't show is bits that turn while the file is open, or in a log."""
import concurrent.futures
import importlib
import os
import random
import shutil
import sys
import tempfile
import time

import laboratory
import page_sums
from laboratory import Laboratory, expect, free_port

HEADER, SPREAD, SECONDS, SEED = 100, 1600, 60, 20260401
rows = importlib.import_module("damaged-rows")
REFUSED = (1, "", "fault: unavailable\n")


def bits_of(length):
    """The numbers of the bits that are turned, in turn."""
    yield from range(8 * HEADER)
    yield from (8 * length * place // SPREAD + place % 8 for place in range(SPREAD))
    others = random.Random(SEED)
    while True:
        yield others.randrange(8 * length)


def with_bit_turned(content, bit):
    place, mask = bit // 8, 1 << bit % 8
    return content[:place] + bytes([content[place] ^ mask]) + content[place + 1:]


class Bits:
    """The file, and the folders in which copies of it have a bit turned."""

    def __init__(self, runs):
        self.runs, self.lab = runs, runs.lab
        with open(runs.whole, "rb") as file:
            self.content = file.read()
        self.told = self.lab.run("accounts", "--db", runs.whole)
        expect("the accounts of the file", (self.told[0], self.told[2]), (0, ""))

    def put(self, name, content):
        return self.lab.write(self.lab.path(name), content)

    def is_taken(self, bit):
        """Whether `accounts` takes the file with this bit turned, which it else refuses by its fault."""
        path = self.put(f"bit-{bit}.db", with_bit_turned(self.content, bit))
        told = self.lab.run("accounts", "--db", path)
        os.remove(path)
        if told != REFUSED:
            expect(f"the accounts where bit {bit} is turned", told, self.told)
        return told != REFUSED

    def records(self, content):
        """What is read over a file of this content, and all its rows."""
        self.runs.fresh()
        self.put(os.path.basename(self.lab.db), content)
        return self.runs.answered(self.runs.reads, [])

    def turn(self, bits):
        """Turns each of these bits in a copy of its own, and gives those with which the file is taken."""
        with concurrent.futures.ThreadPoolExecutor(os.cpu_count()) as pool:
            return [bit for bit, taken in zip(bits, pool.map(self.is_taken, bits)) if taken]


def turned(bits, count):
    """Turns one bit after another, and gives how many were turned, and those with which the file is taken."""
    began, numbers, taken, done = time.time(), bits_of(len(bits.content)), [], 0
    first = 8 * HEADER + SPREAD
    while done < first or (done < count if count else time.time() - began < SECONDS):
        some = {next(numbers) for _ in range(100)}
        taken += bits.turn(sorted(some))
        done += len(some)
    return done, taken


def serving_refuses(bits):
    """What `accounts` refuses, serving refuses as well, and so does an order."""
    length = len(bits.content)
    for place in range(16):
        bit = 8 * (length * place // 16 + 200) + place % 8
        path = bits.put("refused.db", with_bit_turned(bits.content, bit))
        for command in (["serve", "--keys", bits.lab.keys, "--port", str(free_port()), "--count", "1"],
                        ["account-disable", "--account", "7"], ["migrate"]):
            bits.lab.fails("unavailable", command[0], "--db", path, *command[1:], what=f"where bit {bit} is turned")


def without_sums(bits):
    """So the comparison can fail: in a file of the same rows without sums a turned bit of a vendor's name is served."""
    path = page_sums.copy_without(bits.runs.whole, bits.lab.path("plain.db"))
    with open(path, "rb") as file:
        content = file.read()
    expect("the pages with sums of a file that sqlite3 made", page_sums.pages_of(path), [])
    told, there = bits.records(content)
    expect("what is read without sums", told, bits.runs.read)
    name = content.index(b'{"name":"') + len(b'{"name":"')
    other, other_rows = bits.records(with_bit_turned(content, 8 * name))
    expect("whether a turned bit shows without sums", (other != told, other_rows != there), (True, True))


def main():
    program, shim = map(os.path.abspath, sys.argv[1:3])
    count = int(sys.argv[3]) if len(sys.argv) > 3 else None
    with tempfile.TemporaryDirectory() as folder:
        lab = Laboratory(program, folder)
        # for the program that is started, not for this one
        os.environ.update({"LD_PRELOAD": shim, "CLOCK": lab.write(lab.path("clock"), f"{rows.MOMENT}\n")})
        try:
            accounts = rows.whole_file(lab)
            lab.backs_up()
            pages = page_sums.pages_of(lab.path("backup.db"))
            expect("whether Python computes the same sums", (page_sums.wrong_sums(pages), len(pages) > 9), ([], True))
            bits = Bits(rows.Runs(lab, accounts))
            right = bits.records(bits.content)
            done, taken = turned(bits, count)
            for bit in taken:
                expect(f"the records where bit {bit} is turned",
                       bits.records(with_bit_turned(bits.content, bit)) == right, True)
            serving_refuses(bits)
            without_sums(bits)
        finally:
            lab.kill()
    print(f"{done} bits turned in a file of {len(pages)} pages: {done - len(taken)} times it is refused, "
          f"{len(taken)} times the records are the same")
    print(f"{laboratory.checked} comparisons")


if __name__ == "__main__":
    main()
