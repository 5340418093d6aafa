"""The cases of the vectors: what a case holds, the buffers that it changes, and the lines that must be printed for it.

The program `vectors` of the gate runs the kinds 0 to 12, through the library's crates and its C interface; the program `vectors` of
tests/ runs 0, 7, 11 and 13 to 18, through the static library. Both have a flash, zero at first, of 2,097,152 and of 4,194,304 bytes, and a
list; the second also a buffer of 9,216 bytes of which otadata is the front.
A case is 256 bytes; numbers are little-endian:
    0  kind, as below
    1  flags: 1 rollback, 2 anti-rollback, 4 lay the two records first
    2  half word: chip id, number of the list's words or of the sequences, or number of the sector
    4  word a, 8  word b, 12  word c
   16  record of sector 0, 48  record of sector 1, 80  the record lent; or the bytes that are put into the flash; or up to 60
       sequences; or the lengths of 60 pieces; or the list's first 60 words: after them the gate's program has zeros, and the other repeats
       words 57 to 59
  124  start and step of sector 0's or the flash's filler, 126  those of sector 1's
  128  half word: the chip's revision, of image, boot and cuts
Byte i of what is filled is the front's, and after it the start, with step 1 plus 7 i + 13 (i / 256) + 29 (i / 65,536), mod 256. With step 2,
in the gate's program alone, it is byte i % 4 of the number i - i % 4: the word at each multiple of 4 is its place.
Sector 1 is laid up to the buffer's end. The kinds:
    0 flash: c bytes and the filler after them, from a on, b in all
    1 check: sequence a                         the check word
    2 slot: sequence a, slots b                 the slot
    3 version: chip, register a                 the version
    4 raise: chip, register a, version b        the register
    5 read: c bytes at 16                       number, 2 where c is not 32; 1 good, 2 blank, 3 bad sequence, 4 bad check word or 5 bad
                                                state, 0 with the number 2; of a good record the sequence, the state word, and the sum
                                                of the record made again from what was read, else zeros
    6 make: sequence a, state word b, label of the record at 16      number, sum of the record
    7 list: words, length a + 2^32 b of the flash                    number, slots, 1 if factory is listed
    8 part: slot a, length c of the flash       length and sum of the slot's part, and its first word, which is its place in a flash of step 2
    9 factory: length c of the flash            the same of factory
   10 image: chip, revision, length c           number, and the four numbers of its check
   11 digest: length c of the flash             number, sum of the digest of the flash
   12 pieces: b pieces, length c of the flash   the same, of the flash fed by pieces: piece i is as long as word i % 60 of those at 16, or
                                                all that is left if that is less; after the b pieces all that is left, maybe nothing, is one
   13 active: lengths a, b of the sectors       number, the record, what each sector reads as
   14 stores: sector, its length a, the record's length b % 256, b / 256 stores from c on
   15 rewrite: the same but c                   number, what the sector reads as, sum of the buffer
   16 boot: chip, register a, length b of otadata, length c of the flash
                                                number, the six numbers of the reply, sum of the buffer
   17 cuts: chip, register a, sector b, length c of the flash
                                                for a run of cuts: its first and last, what the rewritten sector reads as, number and reply
                                                of the next boot, and what the two sectors then read as
   18 words: sequences                          number, and their check words
A sum stands for bytes: they are the digits of a number to the base 257, taken modulo 4,294,967,291. The gate's program prints five numbers
of each case, zeros after those that are named. The other prints what a sector reads as: a good record in hexadecimal, or why there is
none, `blank`, `bad-sequence`, `bad-check`, `bad-state`, the first that applies, or `wrong-size`. Where no record is active it prints `none`.
Cuts does all stores of a rewrite on a copy, and boots on a copy of that before the first and after each.
"""
import functools
import operator
import struct

BUFFER = 9216
SECTOR = 4096
LAST = 0xFFFFFFFF
PRIME = 4_294_967_291
NAMES = ("flash check slot version raise read make list part factory image digest pieces"
         " active stores rewrite boot cuts words").split()
KINDS = {name: kind for kind, name in enumerate(NAMES)}
FRONT = 108
CASE = 256
WORDS = 60


@functools.lru_cache(None)
def rows(step):
    """A filler's 256 bytes from a multiple of 256 on, by the first of them."""
    return [bytes((first + step * 7 * i) % 256 for i in range(256)) for first in range(256)]


@functools.lru_cache(None)
def filler(start, step, count):
    if step == 2:
        return b"".join(i.to_bytes(4, "little") for i in range(0, count, 4))[:count]
    firsts = ((start + step * (13 * k + 29 * (k // 256))) % 256 for k in range((count + 255) // 256))
    return b"".join(rows(step)[first] for first in firsts)[:count]


def with_revision(body, revision):
    """What a case has from 16 on, with the revision at 128."""
    assert len(body) <= 112
    return body.ljust(112, b"\0") + revision.to_bytes(2, "little")


def laid(front, pair, count):
    """A slice with these bytes in front and the filler of that start and step after them."""
    return (front + filler(*pair, count)[len(front):])[:count]


WEIGHTS = [pow(257, SECTOR - 1 - i, PRIME) for i in range(SECTOR)]


@functools.lru_cache(None)
def weighed(piece):
    return sum(map(operator.mul, WEIGHTS[SECTOR - len(piece):], piece)) % PRIME


def total(data):
    """The sum that stands for bytes."""
    found = 0
    for at in range(0, len(data), SECTOR):
        piece = bytes(data[at:at + SECTOR])
        found = (found * pow(257, len(piece), PRIME) + weighed(piece)) % PRIME
    return found


class Cases:
    """The cases so far, the lines, and the buffers after them."""
    size = 1 << 22

    def __init__(self):
        self.cases = bytearray()
        self.lines = []
        self.flash = bytearray(self.size)
        self.buffer = bytearray(BUFFER)
        self.words = ()

    def add(self, name, a=0, b=0, c=0, half=0, flags=0, body=b""):
        assert len(body) <= CASE - 16
        self.cases += struct.pack(f"<BBHIII{CASE - 16}s", KINDS[name], flags, half, a, b, c, body)

    def say(self, name, *values):
        self.lines.append(" ".join([name, *map(str, values)]))

    def given(self, words):
        """A list as a case gives it."""
        return tuple(words[i if i < WORDS else WORDS - 3 + i % 3] for i in range(len(words)))

    def fill(self, at, count, pair, front=b""):
        """Fills a part of the flash."""
        self.flash[at:at + count] = laid(front, pair, count)
        self.add("flash", at, count, len(front), body=front.ljust(FRONT, b"\0") + bytes(pair))

    def patch(self, at, data):
        """Patches the flash where it is not the data yet."""
        end = at + len(data)
        while at < end:
            if self.flash[at] == data[at - end]:
                at += 1
                continue
            piece = bytes(data[at - end:][:FRONT])
            while piece[-1] == self.flash[at + len(piece) - 1]:
                piece = piece[:-1]
            self.fill(at, len(piece), (0, 0), piece)
            at += len(piece)

    def on(self, recs, pairs, rec=b""):
        """What a case needs to lay the two records first, with the record that it lends."""
        self.buffer[:] = laid(recs[0], pairs[0], SECTOR) + laid(recs[1], pairs[1], BUFFER - SECTOR)
        return {"flags": 4, "body": b"".join(recs) + rec.ljust(44, b"\0") + bytes((*pairs[0], *pairs[1]))}

    def lent(self, rec):
        """What a case needs that lends a record and lays nothing."""
        return {"body": bytes(64) + rec}

    def sector(self, p, size=SECTOR):
        return bytes(self.buffer[SECTOR * p:SECTOR * p + size])


class GateCases(Cases):
    """Those of the gate's program, which prints five numbers of each case."""
    size = 1 << 21

    def given(self, words):
        return tuple(words[:WORDS]) + (0,) * (len(words) - WORDS)

    def add(self, name, *args, **more):
        super().add(name, *args, **more)
        if name == "flash":
            self.say(name)

    def say(self, name, *numbers):
        self.lines.append(" ".join([f"{name:8}", *map(str, (*numbers, 0, 0, 0, 0, 0)[:5])]))
