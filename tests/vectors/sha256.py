#!/usr/bin/env python3
"""Compares digests with those of the program sha256sum: seeded messages of up to 2 MiB, whole and cut in many ways, through the gate's
program `vectors`, and whole ones of up to 4 MiB through the static library.

usage: sha256.py GATE OUTSIDE...   the gate's program, and the command that runs the program `vectors` of tests/
"""
import collections
import itertools
import pathlib
import random
import shutil
import subprocess
import sys
import tempfile

from cases import FRONT, LAST, WORDS, Cases, GateCases, total
from digests import BLOCK, PUBLISHED, Digests


class Summed(Digests):
    """Cases whose lines are made once sha256sum has run over the messages, each a file of the folder."""

    def __init__(self, cases, files):
        super().__init__(cases)
        self.files = files
        self.said = collections.Counter()

    def say(self, name, message):
        self.cases.lines.append((name, self.files.of(message)))
        self.said[name] += 1

    def seeded(self, rand, length):
        """The flash begins with so many seeded bytes: few of them at random, or a filler with some at random here and there."""
        if length <= 4 * FRONT:
            self.lay(rand.randbytes(length))
            return
        self.fill(length, (rand.randrange(256), 1))
        for _ in range(8):
            self.cases.fill(rand.randrange(length - FRONT), FRONT, (0, 0), rand.randbytes(FRONT))

    def lines(self, digests):
        """The lines, with the digests of the files."""
        lines, self.cases.lines = self.cases.lines, []
        for line in lines:
            if isinstance(line, str):
                self.cases.lines.append(line)
            else:
                self.cases.say(line[0], 0, total(digests[line[1]]))
        return self.cases.lines


class Files:
    """The messages, a file for each."""

    def __init__(self, folder):
        self.folder = folder
        self.names = {}

    def of(self, message):
        """The file's name, which is a number."""
        if message not in self.names:
            self.names[message] = str(len(self.names))
            (self.folder / self.names[message]).write_bytes(message)
        return self.names[message]

    def digests(self):
        """What sha256sum says of each file, all in one run; it is held to the standard's published digests."""
        published = {self.of(message): wanted for message, wanted in PUBLISHED.items()}
        run = subprocess.run(["sha256sum", "--", *self.names.values()], cwd=self.folder, stdout=subprocess.PIPE, check=True)
        found = {name: summed for summed, name in map(str.split, run.stdout.decode().splitlines())}
        assert found.keys() == set(self.names.values())
        assert all(found[name] == wanted for name, wanted in published.items()), "sha256sum is not what it should be"
        return {name: bytes.fromhex(summed) for name, summed in found.items()}


def add_ways(summed, rand):
    """Every way of cutting twelve bytes, of cutting eight bytes across the end of a block, and of cutting two blocks and a bit in three."""
    summed.seeded(rand, 2 * BLOCK + 2)
    for before, count in ((0, 12), (BLOCK - 4, 8), (2 * BLOCK - 4, 6)):
        for cuts in itertools.product((False, True), repeat=count - 1):
            ends = [k for k, cut in enumerate(cuts, 1) if cut] + [count]
            summed.pieces(before + count, [before] + [end - start for start, end in zip([0] + ends, ends)])
    for first, second in itertools.combinations_with_replacement(range(2 * BLOCK + 3), 2):
        summed.pieces(2 * BLOCK + 2, [first, second - first])


def add_seeded(summed, rand, length):
    """A message, whole and by seeded pieces: short ones, long ones, some of no bytes and those at the edges of blocks."""
    summed.seeded(rand, length)
    summed.whole(length)
    for most in (2, BLOCK, 3 * BLOCK, 4096, 100_000, LAST):
        edges = [edge for edge in (0, 1, BLOCK - 1, BLOCK, BLOCK + 1, 2 * BLOCK, most) if edge <= most]
        lengths = [rand.choice((rand.randrange(most), rand.randrange(most), *edges)) for _ in range(WORDS)]
        summed.pieces(length, lengths, rand.choice((1, 3, 60, 500, 20_000)))


def of_gate(files):
    summed, rand = Summed(GateCases(), files), random.Random(20261118)
    add_ways(summed, rand)
    for length in range(4 * BLOCK + 1):
        add_seeded(summed, rand, length)
    for length in [GateCases.size >> k for k in range(8)] + [rand.randrange(1 << rand.randrange(10, 22)) for _ in range(40)]:
        add_seeded(summed, rand, length)
    return summed


def outside(files):
    summed, rand = Summed(Cases(), files), random.Random(20261119)
    for length in [Cases.size - more for more in (0, 1, 8, 9, 64)] + [rand.randrange(Cases.size // 2, Cases.size) for _ in range(7)]:
        summed.seeded(rand, length)
        summed.whole(length)
    return summed


def compare(summed, digests, command):
    """Runs the cases, and fails where the lines are not those of the digests."""
    run = subprocess.run(command, input=bytes(summed.cases.cases), stdout=subprocess.PIPE, check=True)
    printed, wanted = run.stdout.decode().splitlines(), summed.lines(digests)
    for k, (got, line) in enumerate(itertools.zip_longest(printed, wanted)):
        if got != line:
            sys.exit(f"sha256: {command[0]} prints {got!r} as line {k}, and by sha256sum it should be {line!r}")


def main():
    if len(sys.argv) < 3:
        sys.exit(__doc__)
    if shutil.which("sha256sum") is None:
        sys.exit("sha256: the program sha256sum is not there")
    with tempfile.TemporaryDirectory() as folder:
        files = Files(pathlib.Path(folder))
        gate, library = of_gate(files), outside(files)
        digests = files.digests()
        compare(gate, digests, sys.argv[1:2])
        compare(library, digests, sys.argv[2:])
    said = gate.said + library.said
    print(f"sha256: of {len(digests)} messages the digests are those of sha256sum, {said['digest']} whole, {said['pieces']} by pieces")


if __name__ == "__main__":
    main()
