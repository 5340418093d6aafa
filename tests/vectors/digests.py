"""Cases of SHA-256, of whole messages and of messages fed by pieces.

Independent of the Rattle code: the digest is hashlib's, held to the standard's published ones.
"""
import random
import struct

from cases import FRONT, LAST, WORDS, total
from layers import digest

BLOCK = 64
MILLION = 1_000_000
# the standard's examples, FIPS 180-4 and its predecessors
PUBLISHED = {
    b"": "e3b0c44298fc1c149afbf4c8996fb92427ae41e4649b934ca495991b7852b855",
    b"abc": "ba7816bf8f01cfea414140de5dae2223b00361a396177a9cb410ff61f20015ad",
    b"abcdbcdecdefdefgefghfghighijhijkijkljklmklmnlmnomnopnopq": "248d6a61d20638b8e5c026930c3e6039a33ce45964ff2167f6ecedd419db06c1",
    b"abcdefghbcdefghicdefghijdefghijkefghijklfghijklmghijklmnhijklmnoijklmnopjklmnopqklmnopqrlmnopqrsmnopqrstnopqrstu":
        "cf5b16a778af8380036ce59e7b0492370b249b11e8f07a51afac45037afee9d1",
    MILLION * b"a": "cdc76e5c9914fb9281a1c7e284d73e67f1809a48a497200e046d39ccc7112cd0",
}


def pieces(message, lengths, count):
    """The pieces that a message is fed by."""
    found, at = [], 0
    for i in range(count):
        found.append(message[at:at + lengths[i % WORDS]])
        at += len(found[-1])
    return found + [message[at:]]


def padding(length):
    """What the standard puts after a message of so many bytes."""
    return b"\x80" + bytes((-length - 9) % BLOCK) + (8 * length).to_bytes(8, "big")


class Digests:
    """Adds the cases, and keeps how pieces lay to the blocks: the number of bytes in the block so far, and where a piece ends."""

    def __init__(self, cases):
        self.cases = cases
        self.met = set()

    def fill(self, count, pair):
        """The flash begins with a filler, whose start and step these are."""
        self.cases.fill(0, count, pair)

    def lay(self, message):
        """The flash begins with this message."""
        for at in range(0, len(message), FRONT):
            front = message[at:at + FRONT]
            self.cases.fill(at, len(front), (0, 0), front)

    def say(self, name, message):
        """The line of a message."""
        self.cases.say(name, 0, total(digest(message)))

    def whole(self, length):
        self.cases.add("digest", c=length)
        self.say("digest", bytes(self.cases.flash[:length]))

    def pieces(self, length, lengths, count=None):
        """So many pieces, or one of each of these lengths, which come again and again where there are more."""
        count = len(lengths) if count is None else count
        lengths = (list(lengths or (0,)) * WORDS)[:WORDS]
        message = bytes(self.cases.flash[:length])
        fed = pieces(message, lengths, count)
        assert b"".join(fed) == message and len(fed) == count + 1
        self.meet(fed)
        self.cases.add("pieces", 0, count, length, body=struct.pack(f"<{WORDS}I", *lengths))
        self.say("pieces", message)

    def meet(self, fed):
        held = 0
        for piece in fed:
            end = held + len(piece)
            self.met.add((held, "nothing" if not piece else "within" if end < BLOCK else "up to" if end == BLOCK else "past"))
            held = end % BLOCK


def add_published(digests):
    for message, wanted in PUBLISHED.items():
        assert digest(message).hex() == wanted
        if len(message) == MILLION:
            digests.fill(MILLION, (ord("a"), 0))
        else:
            digests.lay(message)
        assert digests.cases.flash[:len(message)] == message
        digests.whole(len(message))


def add_lengths(digests):
    """Every length from 0 to 300; lengths at the edges of blocks, of long messages too; bytes that are all alike, or the padding itself."""
    digests.lay(random.Random(1804).randbytes(300))
    for length in range(301):
        digests.whole(length)
    for start in (0, 0x80, 0xFF):
        digests.fill(192, (start, 0))
        for length in (1, 55, 56, 57, 63, 64, 65, 119, 120, 128, 192):
            digests.whole(length)
    for length in (0, 3, 55, 56, 64):
        message = b"abcd" * 16
        padded = message[:length] + padding(length)
        assert len(padded) % BLOCK == 0
        digests.lay(padded)
        digests.whole(len(padded))
    size = digests.cases.size
    digests.fill(size, (3, 1))
    for end in (4096, 65536, 1 << 20, size - BLOCK):
        for more in (-1, 0, 1, 55, 56, 63, 64):
            digests.whole(end + more)


def add_cuts(digests):
    """Every way of cutting short messages in two; every way of cutting ten bytes up to the end of a block, and across it."""
    digests.lay(random.Random(2).randbytes(300))
    for length in (63, 64, 65, 127, 128, 129):
        for first in range(length + 1):
            digests.pieces(length, [first])
    for before in (54, 59):
        for cuts in range(1 << 9):
            ends = [k + 1 for k in range(9) if cuts >> k & 1] + [10]
            digests.pieces(before + 80, [before] + [end - start for start, end in zip([0] + ends, ends)])


def add_short_pieces(digests):
    """Messages in one piece, byte by byte, and with pieces of no bytes, also after the message's end."""
    for length in range(131):
        digests.pieces(length, (), 0)
    for length in (1, 63, 64, 65, 119, 120, 200):
        for count in (length - 1, length, length + 70):
            digests.pieces(length, [1], count)
    for length in (0, 1, 55, 56, 63, 64, 65, 128, 200):
        for lengths in ([0], [0, 1], [1, 0, 0], [0, 64], [64, 0], [63, 0, 1], [0, 65, 0], [0, 0, LAST], [LAST, 0]):
            digests.pieces(length, lengths, 7)
            digests.pieces(length, lengths, 250)


LENGTHS = (1, 3, 7, 63, 64, 65, 100, 127, 128, 129, 4095, 4096)


def add_long_pieces(digests):
    """Messages of some 20,000 bytes, by pieces of one length and of several, and a part by one last piece."""
    digests.fill(1 << 21, (11, 1))
    for length in (19_967, 19_968, 20_011):
        for one in LENGTHS:
            for count in (length // one + 1, length // one // 3):
                digests.pieces(length, [one], count)
    rand = random.Random(5)
    for _ in range(60):
        lengths = [rand.choice((0, 1, 2, 55, 56, *LENGTHS, rand.randrange(5000))) for _ in range(WORDS)]
        digests.pieces(rand.randrange(30_000), lengths, rand.choice((5, 20, 60, 200)))
    for length in (1 << 20, (1 << 21) - 1, 1 << 21):
        for one in (1000, 4096, 65_535, 1 << 20, LAST):
            digests.pieces(length, [one], length // one + 1)
    digests.fill(MILLION, (ord("a"), 0))
    for one in (1, 63, 4096):
        digests.pieces(MILLION, [one], MILLION // one)


def add_whole(cases):
    """Those of whole messages."""
    digests = Digests(cases)
    add_published(digests)
    add_lengths(digests)
    return digests


def add_all(cases):
    digests = add_whole(cases)
    for add in (add_cuts, add_short_pieces, add_long_pieces):
        add(digests)
    # with each number of bytes in the block there were pieces that end in it, with it and after it, and of no bytes
    ends = {(held, end) for held in range(BLOCK) for end in ("nothing", "within", "up to", "past")}
    assert digests.met == ends - {(BLOCK - 1, "within")}
