"""Cases of records and sectors, and document 01's rules of them, with those of document 02's order 7.

Independent of the Rattle code: the check word is zlib's CRC-32, and a rewrite is a list of stores.
"""
import collections
import functools
import itertools
import random
import struct
import zlib

from cases import LAST, SECTOR, WORDS, total

STATES = NEW, PENDING, VALID, INVALID, ABORTED, UNDEFINED = [0, 1, 2, 3, 4, LAST]
FF = b"\xff"
BLANK = FF * 32
LABEL = bytes(range(65, 85))
# why a sector holds no good record, by the code of the reader's answer; 0 comes with the number 2
REASONS = {0: "wrong-size", 2: "blank", 3: "bad-sequence", 4: "bad-check", 5: "bad-state"}

Reading = collections.namedtuple("Reading", "sequence label state")


# ---- the rules of document 01

def check_word(sequence):
    return zlib.crc32(struct.pack("<I", sequence), LAST)


def record(sequence, state, label=FF * 20):
    return struct.pack("<I20sII", sequence, label, state, check_word(sequence))


@functools.lru_cache(None)
def reading(rec):
    """What a record reads as, or None."""
    if len(rec) != 32:
        return None
    sequence, label, state, check = struct.unpack("<I20sII", rec)
    if 1 <= sequence < LAST and check == check_word(sequence) and state in STATES:
        return Reading(sequence, label, state)
    return None


@functools.lru_cache(None)
def answer(rec):
    """The reader's answer for the bytes of a record: number, code, and the sequence and state word of a good one, else zeros. The code is
    that of the first reason that applies; where none does, the record is good."""
    if len(rec) != 32:
        return 2, 0, 0, 0
    sequence, _, state, check = struct.unpack("<I20sII", rec)
    applies = {2: rec == BLANK, 3: sequence in (0, LAST), 4: check != check_word(sequence), 5: state not in STATES}
    code = next((code for code in applies if applies[code]), 1)
    assert (code == 1) == (reading(rec) is not None)
    return (0, code, sequence, state) if code == 1 else (0, code, 0, 0)


def make(sequence, label, state):
    rec = record(sequence, state, label)
    return (0, rec) if reading(rec) else (17, bytes(32))


def named(sequence, slots):
    return (sequence - 1) % slots


def sector_reading(sector):
    return reading(bytes(sector[:32])) if len(sector) == SECTOR else None


def sector_answer(sector):
    return answer(bytes(sector[:32])) if len(sector) == SECTOR else (2, 0, 0, 0)


def usable(read):
    return read is not None and read.state not in (INVALID, ABORTED)


def active(sectors):
    """The number of the sector with the active record, or None."""
    reads = [sector_reading(sector) for sector in sectors]
    found = [(-read.sequence, k) for k, read in enumerate(reads) if usable(read)]
    return min(found)[1] if found else None


def put_store(sector, rec, m):
    """Store m of a rewrite."""
    if m < SECTOR:
        sector[m] = 0xFF
    else:
        sector[31 - (m - SECTOR)] = rec[31 - (m - SECTOR)]


def one_store(sector, rec, m):
    """The reply to a single store, which changes the sector."""
    if len(sector) != SECTOR or len(rec) != 32:
        return 2
    if m >= 4128:
        return 12
    put_store(sector, rec, m)
    return 0


def rewrite(sector, rec):
    """The reply to a whole rewrite, which changes the sector."""
    if len(sector) != SECTOR or len(rec) != 32:
        return 2
    sector[:] = rec + FF * (SECTOR - 32)
    return 0


# ---- cases and their lines

def add_check(cases, sequence):
    cases.add("check", sequence)
    cases.say("check", check_word(sequence))


def add_words(cases, sequences):
    cases.add("words", half=len(sequences), body=struct.pack(f"<{len(sequences)}I", *sequences))
    cases.say("words", 0, *map(check_word, sequences))


def add_make(cases, sequence, label, state):
    number, rec = make(sequence, label, state)
    cases.add("make", sequence, state, 32, body=record(1, NEW, label))
    cases.say("make", number, total(rec))


def add_read(cases, rec, length=32, want=None):
    """What is wanted is the code."""
    cases.add("read", c=length, body=rec)
    lent = (rec + bytes(64))[:length]
    found = answer(lent)
    assert want is None or found[1] == want, (lent, found, want)
    cases.say("read", *found, total(lent) if found[1] == 1 else 0)


def add_slot(cases, sequence, slots):
    # a sequence of 0 counts as 1, and of no slots slot 0 is named
    cases.add("slot", sequence, slots)
    cases.say("slot", named(max(sequence, 1), slots) if slots else 0)


def shown(sector):
    """What a sector reads as, or why it holds no good record."""
    code = sector_answer(sector)[1]
    return bytes(sector[:32]).hex() if code == 1 else REASONS[code]


def add_active(cases, recs, lengths=(SECTOR, SECTOR), fills=(0, 0xFF)):
    """The active record, and what each sector reads as."""
    cases.add("active", *lengths, **cases.on(recs, [(fill, 0) for fill in fills]))
    sectors = [cases.sector(k, lengths[k]) for k in (0, 1)]
    holder = active(sectors)
    cases.say("active", *((0, "none") if holder is None else (32, recs[holder].hex())), *map(shown, sectors))


def say_sector(cases, name, number, p, size):
    """The line after a change of a sector."""
    cases.say(name, number, shown(cases.sector(p, size)), total(cases.buffer))


def on_old(cases, old, fill, rec):
    """Sector 0 with an old record and its fill, which goes on behind it, and the record lent."""
    return cases.on((old, bytes([fill]) * 32), ((fill, 0), (fill, 0)), rec)


def add_rewrite(cases, old, fill, rec, length=SECTOR, lent=32):
    cases.add("rewrite", length, lent, **on_old(cases, old, fill, rec))
    sector = bytearray(cases.sector(0, length))
    number = rewrite(sector, (rec + bytes(40))[:lent])
    cases.buffer[:length] = sector
    say_sector(cases, "rewrite", number, 0, length)


def add_stores(cases, p, rec, numbers, size=SECTOR, lent=32, **laying):
    """Those stores of a rewrite of sector p."""
    cases.add("stores", size, lent + 256 * len(numbers), numbers.start, p, **laying or cases.lent(rec))
    sector = bytearray(cases.sector(p, size))
    number = 0
    for m in numbers:
        number = one_store(sector, (rec + bytes(40))[:lent], m)
    cases.buffer[SECTOR * p:SECTOR * p + size] = sector
    say_sector(cases, "stores", number, p, size)


def add_store(cases, old, fill, rec, m, length=SECTOR, lent=32):
    add_stores(cases, 0, rec, range(m, m + 1), length, lent, **on_old(cases, old, fill, rec))


def add_cut(cases, old, fill, rec, k):
    add_stores(cases, 0, rec, range(k), **on_old(cases, old, fill, rec))
    assert sector_reading(cases.sector(0)) in (None, reading(old), reading(rec)), "the law of the reading fails"


def miswritten(sequence, state, check, label=LABEL):
    """A record whose check word has these bits wrong."""
    return record(sequence, state, label)[:28] + struct.pack("<I", check_word(sequence) ^ check)


def with_faults():
    """Records with every combination of a wrong sequence, check word and state, each by its faults, and the code of the first of them."""
    sequences = {"": 7, "sequence 0": 0, "sequence -1": LAST}
    checks = {"": 0, "check": 0x40}
    states = {"": VALID, "state": 5}
    for faults in itertools.product(sequences, checks, states):
        sequence, check, state = faults
        code = next((code for code, fault in zip((3, 4, 5), faults) if fault), 1)
        yield " ".join(filter(None, faults)), miswritten(sequences[sequence], states[state], checks[check]), code


def each_at_each_place(width):
    """Each number of so many bits, at each of its places in a word."""
    return [number << place for place in range(0, 32, width) for number in range(1 << width)]


def add_records(cases):
    rand = random.Random(20261115)
    anything = lambda n: bytes(rand.randrange(256) for _ in range(n))
    assert (check_word(1), check_word(2)) == (0x4743989A, 0x55F63774)
    for sequence in [1, 2, 0, LAST, LAST - 1] + [1 << k for k in range(32)] + [rand.randrange(1 << 32) for _ in range(40)]:
        add_check(cases, sequence)
    for sequence in each_at_each_place(4):
        add_check(cases, sequence)

    for state in STATES + [5, 0x100, 0x01000000, LAST - 1]:
        for sequence in (0, 1, 6, LAST - 1, LAST):
            add_make(cases, sequence, LABEL, state)
    add_make(cases, 1, FF * 20, LAST)
    for _ in range(20):
        add_make(cases, rand.randrange(1 << 32), anything(20), rand.choice(STATES))

    for state in STATES:
        for sequence in (1, 2, 256, LAST - 1):
            add_read(cases, record(sequence, state, LABEL))
    for sequence in (0, LAST):
        add_read(cases, record(sequence, VALID, LABEL))
    whole = record(0x01020304, VALID, LABEL)
    for i in range(32):  # each byte of each field damaged, in its lowest and in its highest bit
        for bit in (1, 0x80):
            add_read(cases, whole[:i] + bytes([whole[i] ^ bit]) + whole[i + 1:])
    for length in (0, 1, 31, 32, 33, 64):
        add_read(cases, whole, length)
    add_read(cases, BLANK, want=2)
    add_read(cases, bytes(32), want=3)
    add_answers(cases)

    for slots in (0, 1, 2, 3, 8, 9, 16, 17, LAST):
        for sequence in (0, 1, 2, 4, 5, 6, 9, 10, 16, 17, LAST - 1, LAST):
            add_slot(cases, sequence, slots)


def add_answers(cases):
    """Each reason, and the first of several."""
    for i in range(32):  # one bit less than blank: a good sequence with a wrong check word, or a bad sequence
        for bit in (1, 0x80):
            add_read(cases, BLANK[:i] + bytes([0xFF ^ bit]) + BLANK[i + 1:], want=4 if i < 4 else 3)
    for _, rec, code in with_faults():
        add_read(cases, rec, want=code)
        for length in (31, 33):
            add_read(cases, rec, length, 0)
    for sequence, code in ((1, 4), (2, 4), (0x01020304, 4), (LAST - 1, 4), (0, 3), (LAST, 3)):
        for state in (NEW, UNDEFINED, 5, LAST - 1, 0x01000000):
            for label in (FF * 20, bytes(20)):
                add_read(cases, record(sequence, state, label), want=3 if code == 3 else 1 if state in STATES else 5)
                for check in (1, 0x80000000):
                    add_read(cases, miswritten(sequence, state, check, label), want=code)
    for sequence in (0, 1, LAST - 1):  # erased but for the sequence: its check word is FF for 0 alone
        add_read(cases, struct.pack("<I", sequence) + FF * 28, want=4 if sequence else 3)
    for length in (0, 1, 31, 33, 64):
        add_read(cases, FF * 64, length, 0)


def add_pairs(cases):
    """The active record of two."""
    kinds = [record(7, state, LABEL) for state in STATES] + [BLANK, record(0, VALID, LABEL)]
    others = [record(7, state, bytes(20)) for state in STATES] + [BLANK, bytes(32)]
    for first in kinds:  # ties, told apart by the label
        for second in others:
            add_active(cases, (first, second))
    for low, high in ((1, 2), (255, 256), (LAST - 2, LAST - 1)):
        add_active(cases, (record(low, VALID, LABEL), record(high, NEW, LABEL)))
        add_active(cases, (record(high, VALID, LABEL), record(low, UNDEFINED, LABEL)))
        add_active(cases, (record(high, INVALID, LABEL), record(low, PENDING, LABEL)))
        add_active(cases, (record(low, PENDING, LABEL), record(high, ABORTED, LABEL)))
    two = (record(5, VALID, LABEL), record(6, VALID, LABEL))
    for lengths in ((4095, 4096), (4096, 4097), (0, 4096), (4096, 32), (31, 33), (5000, 5000)):
        add_active(cases, two, lengths)


def add_reasons(cases):
    """What two sectors read as: each combination of faults with each, also in a sector of another size, and what stands after the record
    makes no difference."""
    recs = [rec for _, rec, _ in with_faults()] + [BLANK, bytes(32), FF * 31 + b"\xfe", b"\xfe" + FF * 31]
    assert {answer(rec)[1] for rec in recs} == {1, 2, 3, 4, 5}
    for pair in itertools.product(recs, recs):
        add_active(cases, pair)
    for rec in recs:
        for lengths in ((SECTOR, SECTOR - 1), (SECTOR + 1, SECTOR), (32, SECTOR), (SECTOR, 0)):
            add_active(cases, (rec, rec), lengths)
        add_active(cases, (rec, rec), fills=(0xFF, 0))


def add_rewrites(cases):
    """Stores, whole rewrites and cut ones."""
    whole, new = record(0x01020304, VALID, LABEL), record(0x0A0B0C0D, NEW, LABEL)
    for m in (0, 1, 31, 32, 4094, 4095, 4096, 4097, 4110, 4126, 4127, 4128, 4129, LAST):
        add_store(cases, bytes(32), 0, new, m)
        add_store(cases, whole, 0x55, new, m)
    for length, lent in ((4095, 32), (4097, 32), (0, 32), (4096, 31), (4096, 33), (4096, 0), (4095, 31)):
        for m in (0, 4127, 4128):
            add_store(cases, whole, 0x55, new, m, length, lent)
        add_rewrite(cases, whole, 0x55, new, length, lent)
    for old in (BLANK, bytes(32), whole):
        add_rewrite(cases, old, 0x55, new)

    edges = list(range(6)) + [31, 32, 33, 4094, 4095, 4096, 4097, 4098] + list(range(4120, 4129))
    olds = [BLANK, whole, record(0x00FFFFFF, VALID, LABEL), record(0xFFFFFF00, VALID, LABEL), record(0xFFFF00FF, UNDEFINED, LABEL)]
    news = [new, record(0x00FFFFFF, NEW, bytes(20)), record(LAST - 1, VALID, LABEL)]
    for old in olds:
        for rec in news:
            for k in edges:
                add_cut(cases, old, 0xA5, rec, k)


def add_many_words(cases):
    """The check words of many sequences: each byte at each place, and slices of every length up to what a case holds."""
    rand = random.Random(20261116)
    numbers = each_at_each_place(8)
    for at in range(0, len(numbers), WORDS):
        add_words(cases, numbers[at:at + WORDS])
    for count in range(WORDS + 1):
        add_words(cases, [rand.choice((1, 2, LAST - 1, LAST, rand.randrange(1 << 32))) for _ in range(count)])


def add_sectors(cases):
    add_many_words(cases)
    add_pairs(cases)
    add_reasons(cases)
    add_rewrites(cases)
