"""Cases of the eFuse register, partition lists, their parts and app images, and the rules of documents 01 and 02 of them.

Independent of the Rattle code: the digest is hashlib's.
"""
import functools
import hashlib
import itertools
import operator
import random
import struct

from cases import LAST, SECTOR, WORDS, GateCases, filler, total, with_revision

FLASH = 16_777_216
IMAGES = 1 << 20  # the front of the flash that holds an image
PARTS = GateCases.size  # that which holds the parts
ALIGN = 65536
FACTORY = "factory"
REVISION = 30_000


# ---- the rules

def width(chip):
    """How many bits of the register count, the lowest ones."""
    return 32 if chip == 0 else 16


def version(register, chip):
    return bin(register % (1 << width(chip))).count("1")


def raised(register, v, chip):
    for k in range(width(chip)):
        if version(register, chip) >= v:
            break
        register |= 1 << k
    return register


@functools.lru_cache(None)
def listing(words, flash):
    """Where each app of a list lies, or None where the list or the flash breaks the rules."""
    if flash > FLASH or len(words) % 3 != 0:
        return None
    entries = [words[i:i + 3] for i in range(0, len(words), 3)]
    by_subtype = {subtype: (offset, offset + size) for subtype, offset, size in entries}
    slots = sorted(subtype for subtype in by_subtype if subtype != 0)
    if len(by_subtype) != len(entries) or not 2 <= len(slots) <= 16 or slots != list(range(16, 16 + len(slots))):
        return None
    for _, offset, size in entries:
        if offset % ALIGN != 0 or size == 0 or size % SECTOR != 0 or offset + size > flash:
            return None
    ranges = sorted(by_subtype.values())
    if any(before[1] > after[0] for before, after in zip(ranges, ranges[1:])):
        return None
    return {subtype - 16 if subtype else FACTORY: places for subtype, places in by_subtype.items()}


def slots_in(places):
    """The number of slots of a list."""
    return len(places) - (FACTORY in places)


def app_part(words, flash, app):
    """The part of the flash of an app: empty where the list is refused or the app is not listed."""
    places = listing(words, len(flash))
    return flash[slice(*places[app])] if places and app in places else b""


def word(data, at):
    return int.from_bytes(data[at:at + 4], "little")


def half(data, at):
    return int.from_bytes(data[at:at + 2], "little")


def checksum(datas):
    return functools.reduce(operator.xor, b"".join(datas), 0xEF)


def digest(data):
    return hashlib.sha256(data).digest()


def wrong_revision(image, revision):
    minimum, maximum = half(image, 15), half(image, 17)
    return revision < minimum or maximum not in (0, 65535) and revision > maximum


def check_image(image, chip, revision):
    """Number and place of the refusal, or 0 with whole length, entry, secure version and number of segments."""
    if len(image) < 288:
        return 20, 0
    for wrong, refusal in ((image[0] != 0xE9, (21, 0)), (not 1 <= image[1] <= 16, (22, 1)), (half(image, 12) != chip, (23, 12)),
                           (wrong_revision(image, revision), (31, 15)), (image[23] > 1, (24, 23))):
        if wrong:
            return refusal
    at, datas = 24, []
    for _ in range(image[1]):
        size = word(image, at + 4)
        if at + 8 > len(image) or size % 4 != 0 or at + 8 + size > len(image):
            return 25, at
        datas.append(image[at + 8:at + 8 + size])
        at += 8 + size
    if len(datas[0]) < 256 or word(image, 32) != 0xABCD5432:
        return 26, 32
    padded = at - at % 16 + 16
    length = padded + 32 * image[23]
    if length > len(image):
        return 27, at
    if image[padded - 1] != checksum(datas):
        return 28, padded - 1
    if word(image, 36) > width(chip):
        return 29, 36
    if image[23] == 1 and image[padded:length] != digest(image[:padded]):
        return 30, padded
    return 0, length, word(image, 4), word(image, 36), image[1]


# ---- cases and their lines

class Layers:
    """Adds the cases of the layers, and keeps the answers to images that were met."""

    def __init__(self, cases):
        self.cases = cases
        self.met = set()

    def version(self, register, wanted=None, chip=0):
        got = version(register, chip)
        assert wanted in (None, got), (register, chip)
        self.cases.add("version", register, half=chip)
        self.cases.say("version", got)

    def raised(self, register, v, wanted=None, chip=0):
        got = raised(register, v, chip)
        assert wanted in (None, got), (register, v, chip)
        self.cases.add("raise", register, v, half=chip)
        self.cases.say("raise", got)

    def fill(self, count=IMAGES, step=1):
        self.cases.fill(0, count, (0, step))

    def list(self, words, flash=FLASH, right=None):
        places = add_list(self.cases, words, flash)
        assert right in (None, places is not None), (words, flash)

    def part(self, words, slot, length, flash=PARTS):
        """The part of a slot, or of factory, and the length that it must have. Its first word is its place."""
        if self.cases.words != tuple(words):
            self.list(words, flash)
        app = FACTORY if slot is None else slot
        found = app_part(self.cases.words, bytes(self.cases.flash[:flash]), app)
        assert len(found) == length, (words, slot, flash)
        place = word(found, 0)
        assert length == 0 or place == listing(self.cases.words, flash)[app][0], (words, slot, flash)
        name = "factory" if slot is None else "part"
        self.cases.add(name, slot or 0, c=flash)
        self.cases.say(name, len(found), total(found), place)

    def image(self, content, wanted=None, length=None, chip=0, revision=REVISION):
        """An image at the front of the flash. What is wanted is the answer's number, or how the answer begins."""
        self.cases.patch(0, content)
        length = len(content) if length is None else length
        answer = check_image(bytes(self.cases.flash[:length]), chip, revision)
        wanted = (wanted,) if isinstance(wanted, int) else wanted
        assert wanted is None or answer[:len(wanted)] == wanted, (answer, wanted)
        self.met.add(answer[0])
        self.cases.add("image", c=length, half=chip, body=with_revision(b"", revision))
        self.cases.say("image", *(*answer, 0, 0, 0)[:5])


def add_list(cases, words, flash):
    """A list, which those cases that need one have from now on. Gives where its apps lie."""
    cases.words = tuple(words)
    assert cases.words == cases.given(words)
    places = listing(cases.words, flash)
    first = words[:WORDS]
    cases.add("list", flash % (1 << 32), flash >> 32, half=len(words), body=struct.pack(f"<{len(first)}I", *first))
    cases.say("list", *((1, 0, 0) if places is None else (0, slots_in(places), int(FACTORY in places))))
    return places


# ---- the eFuse register

def add_efuse(cases, rand):
    for v, wanted in ((3, 0x0B), (4, 0x0F), (5, 0x1F), (32, LAST), (33, LAST)):
        cases.raised(0x0B, v, wanted)
    cases.version(0x0B, 3)
    registers = [0, LAST, LAST >> 1, LAST - 1] + [1 << k for k in range(32)]
    for register in registers + [rand.randrange(1 << 32) for _ in range(20)]:
        cases.version(register)
    for v in range(41):
        cases.raised(0, v, LAST >> (32 - min(v, 32)))
        cases.raised(rand.randrange(1 << 32), v)
    for v in (0, 1, 31, 32, 33, LAST):
        cases.raised(LAST, v, LAST)
        cases.raised(0xAAAAAAAA, v)
        cases.raised(LAST >> 1, v)


def add_sixteen_bits(cases, rand):
    """On other chips than 0 the upper half of the register is not counted, and comes back as it is."""
    halves = (0, 1, 0x8000, 0xAAAA, 0xFFFF)
    for chip in (5, 16, 0x0100, 0xFFFF):
        for above in halves:
            for low in halves:
                cases.version(above << 16 | low, bin(low).count("1"), chip)
            for v in (0, 1, 15, 16, 17, 32, 33, LAST):
                cases.raised(above << 16, v, above << 16 | 0xFFFF >> (16 - min(v, 16)), chip)
                cases.raised(above << 16 | 0xFFFF, v, above << 16 | 0xFFFF, chip)
        cases.raised(0xFFFF0000, 1, 0xFFFF0001, chip)
        for _ in range(10):
            register = rand.randrange(1 << 32)
            cases.version(register, chip=chip)
            cases.raised(register, rand.randrange(19), chip=chip)


# ---- partition lists

def entry(subtype, unit, size=ALIGN):
    return [subtype, unit * ALIGN, size]


def slots_of(n, unit=2, factory=None, order=None):
    """A right list of n slots from that unit of 65,536 bytes on; factory goes before the entry of that place."""
    entries = [entry(16 + s, unit + s) for s in (order or range(n))]
    if factory is not None:
        entries.insert(factory, entry(0, unit - 1))
    return sum(entries, [])


def changed(words, at, value):
    return words[:at] + [value] + words[at + 1:]


def add_right_lists(cases):
    for n in range(2, 17):
        cases.list(slots_of(n), right=True)
        for place in (0, n // 2, n):
            cases.list(slots_of(n, factory=place), right=True)
    for order in itertools.permutations(range(3)):
        for place in range(4):
            cases.list(slots_of(3, factory=place, order=order), right=True)
    cases.list(slots_of(2, unit=0), 2 * ALIGN, right=True)  # at the flash's start and up to its end
    cases.list(slots_of(2, unit=0), 2 * ALIGN - 1, right=False)
    cases.list(entry(16, 0, SECTOR) + entry(17, 1, SECTOR), ALIGN + SECTOR, right=True)
    cases.list(entry(16, 0) + entry(17, 255), right=True)  # an end exactly at the flash's end, and one sector past it
    cases.list(entry(16, 0) + entry(17, 255, ALIGN + SECTOR), right=False)
    cases.list(entry(16, 0, 255 * ALIGN) + entry(17, 255), right=True)
    cases.list(entry(17, 0, FLASH - ALIGN) + entry(16, 255, SECTOR), right=True)


def add_many_slots(cases):
    """Nine and sixteen slots in another order, and with them one more, one twice, one missing and the subtypes after the last slot's."""
    for n in (9, 16):
        order = [(7 * k + 3) % n for k in range(n)]
        assert sorted(order) == list(range(n)) != order
        for factory in (None, 0, n // 2, n):
            words = slots_of(n, factory=factory, order=order)
            cases.list(words, right=True)
            cases.list(words + entry(16 + n, 30), right=n < 16)
            for subtype in (16 + n + 1, 32, 33):
                cases.list(words + entry(subtype, 30), right=False)
            for s in (0, n // 2, n - 1):
                cases.list(words + entry(16 + s, 30), right=False)
                rest = slots_of(n, factory=factory, order=[k for k in order if k != s])
                cases.list(rest, right=s == n - 1)
                for subtype in (16 + n, 32, 33):
                    cases.list(rest + entry(subtype, 30), right=False)
    for factory in (None, 0, 8, 17):
        cases.list(slots_of(17, factory=factory), right=False)


def add_wrong_lists(cases):
    """Each rule broken alone."""
    four = slots_of(4, factory=2)
    for words in ([], [0], four[:-1], four[:-2], four + [20], four + [20, 7 * ALIGN]):
        cases.list(words, right=False)
    for subtype in (1, 15, 16 + 4, 16 + 5, 16 + 8, 32, 33, LAST, LAST - 15, 0x10000010):
        cases.list(changed(four, 0, subtype), right=False)
        cases.list(changed(four, 6, subtype), right=subtype == 20)  # in place of factory
        cases.list(four + entry(subtype, 9), right=subtype == 20)
    cases.list(four + entry(0, 9), right=False)  # factory twice, slots twice, slots missing
    for s in range(4):
        cases.list(four + entry(16 + s, 9), right=False)
        cases.list(slots_of(4, order=[k for k in range(4) if k != s]), right=s == 3)
    for n in (0, 1):
        cases.list(slots_of(n), right=False)
        cases.list(slots_of(n, factory=0), right=False)
    spaced = sum([entry(subtype, 2 * unit) for unit, subtype in enumerate((17, 0, 16, 18))], [])
    for at in range(0, len(spaced), 3):
        for more in (0, 1, 2, 2048, SECTOR, ALIGN // 2, ALIGN - SECTOR, ALIGN):
            cases.list(changed(spaced, at + 1, spaced[at + 1] + more), right=more in (0, ALIGN))
        for size in (0, 1, 2048, SECTOR - 1, SECTOR, SECTOR + 1, ALIGN - 2048, 2 * ALIGN):
            cases.list(changed(spaced, at + 2, size), right=size in (SECTOR, 2 * ALIGN))


def add_overlaps(cases):
    for i, j in itertools.permutations(range(3), 2):
        apart = [entry(16 + k, 2 * k + 1) for k in range(3)]
        apart[i] = entry(16 + i, 9, 2 * ALIGN)
        for last in (entry(16 + j, 11), entry(16 + j, 8), entry(16 + j, 12, SECTOR)):
            cases.list(sum([last if k == j else apart[k] for k in range(3)], []), right=True)
        for last in (entry(16 + j, 8, ALIGN + SECTOR), entry(16 + j, 10), entry(16 + j, 10, SECTOR), entry(16 + j, 9, 2 * ALIGN),
                     entry(16 + j, 8, 4 * ALIGN), entry(16 + j, 9, SECTOR), entry(16 + j, 0, FLASH)):
            cases.list(sum([last if k == j else apart[k] for k in range(3)], []), right=False)
    cases.list(slots_of(2, factory=0)[:2] + [ALIGN + SECTOR] + slots_of(2), right=False)


def add_list_ends(cases):
    four = slots_of(4, factory=0)
    for flash in (FLASH, FLASH - 1, 6 * ALIGN):
        cases.list(four, flash, right=True)
    for flash in (0, 1, 6 * ALIGN - 1, 6 * ALIGN - SECTOR, FLASH + 1, 1 << 32, (1 << 32) + FLASH, 1 << 63, (1 << 64) - 1):
        cases.list(four, flash, right=False)
    for offset in (FLASH, LAST - ALIGN + 1, 1 << 31):  # 32-bit sums would wrap
        for size in (SECTOR, ALIGN, LAST - SECTOR + 1, 1 << 31, (1 << 32) - offset, (1 << 32) - offset + ALIGN):
            if size <= LAST:
                cases.list(slots_of(2) + [18, offset, size], right=False)
                cases.list([18, offset, size] + slots_of(2), FLASH, right=False)
    for words in long_lists([0, 0, 0]):
        cases.list(words, right=len(words) == 51)


def long_lists(more):
    """Seventeen entries, which are the most, and after them one again and again."""
    return [(slots_of(16, factory=16) + 83 * more)[:count] for count in (51, 52, 53, 54, 55, 57, 150, 299, 300)]


def add_repeated_lists(cases):
    """Long lists whose entries are right but for factory being repeated."""
    for words in (slots_of(17, factory=0), *long_lists(entry(0, 1))):
        places = add_list(cases, words, FLASH)
        assert (places is not None) == (len(words) == 51), words


def add_random_lists(cases, rand):
    edges = [0, 1, 15, 16, 17, 23, 24, 31, 32, SECTOR, SECTOR - 1, ALIGN, ALIGN + SECTOR, 2 * ALIGN, 3 * ALIGN, FLASH - ALIGN, FLASH, LAST]
    for _ in range(150):
        n = rand.randrange(2, 18)
        units = rand.sample(range(256), n + 1)
        entries = [entry(16 + s, units[s], SECTOR * rand.randrange(1, 20)) for s in range(n)]
        entries += [entry(0, units[n])] if rand.randrange(2) else []
        rand.shuffle(entries)
        words = sum(entries, [])
        for _ in range(rand.choice((0, 0, 1, 2))):
            words = changed(words, rand.randrange(len(words)), rand.choice(edges))
        cases.list(words, rand.choice((FLASH, FLASH, FLASH - SECTOR, 128 * ALIGN)))


def add_parts(cases):
    """In a flash whose words are all different, so that the bytes of a part that is not empty are those of one place alone."""
    cases.fill(PARTS, step=2)
    assert len(set(struct.unpack(f"<{PARTS // 4}I", cases.cases.flash))) == PARTS // 4
    mixed = slots_of(4, factory=2, order=(2, 0, 3, 1))
    mixed[2] = SECTOR  # slot 2
    for slot in (None, 0, 1, 2, 3):
        cases.part(mixed, slot, SECTOR if slot == 2 else ALIGN)
    for n in (8, 9, 16):
        for slot in (None, 0, 1, 2, 3, n - 2, n - 1):
            cases.part(slots_of(n, factory=n), slot, ALIGN)
        cases.part(slots_of(n), n - 1, ALIGN, (n + 2) * ALIGN)
        cases.part(slots_of(n), n, 0)
    cases.part(entry(16, 0, 7 * ALIGN) + entry(17, 7, 9 * ALIGN), 1, 9 * ALIGN, 16 * ALIGN)
    for slot in (4, 5, 8, 16, LAST, LAST - 15):  # unlisted
        cases.part(mixed, slot, 0)
    cases.part(slots_of(2), None, 0)
    for slot in (None, 0, 15, 16):
        cases.part(slots_of(17, factory=0), slot, 0)
    wrong = [[], mixed[:-1], mixed + mixed[:3], changed(mixed, 1, 2 * ALIGN + SECTOR), changed(mixed, 6, 1)]
    for words, flash in [(words, PARTS) for words in wrong] + [(mixed, 6 * ALIGN - 1), (mixed, 0)]:  # refused
        for slot in (None, 0, 3):
            cases.part(words, slot, 0, flash)
    cases.fill()


# ---- app images

FILLED = filler(0, 1, IMAGES)
LIMITS = struct.unpack_from("<HH", FILLED, 15)  # the minimum and the maximum revision that a fill leaves
assert 0 < LIMITS[0] < REVISION < LIMITS[1] < 65535


def build(lengths, magic=0xE9, count=None, entry_address=0x40080400, chip=0, limits=LIMITS, flag=0, descriptor=0xABCD5432, secure=1,
          wrong=0, puts=(), spoilt=0, cut=0, more=0):
    """An image with segments of these lengths, whose data is what a fill leaves. The puts are laid over it last, before the digest, if it
    has one. The wrong and the spoilt bits are those of the checksum and of the first digest byte."""
    e = 24 + sum(8 + length for length in lengths)
    padded = e - e % 16 + 16
    image = bytearray(FILLED[:padded + 32 * flag + more])
    struct.pack_into("<BB", image, 0, magic, len(lengths) if count is None else count)
    struct.pack_into("<I", image, 4, entry_address)
    struct.pack_into("<H", image, 12, chip)
    struct.pack_into("<HH", image, 15, *limits)
    image[23] = flag
    struct.pack_into("<II", image, 32, descriptor, secure)
    at, datas = 24, []
    for number, length in enumerate(lengths):
        struct.pack_into("<II", image, at, 0x3F400020 + 0x10000 * number, length)
        datas.append(image[at + 8:at + 8 + length])
        at += 8 + length
    image[padded - 1] = checksum(datas) ^ wrong
    for at, data in puts:
        image[at:at + len(data)] = data
    if flag:
        image[padded:padded + 32] = digest(image[:padded])
        image[padded] ^= spoilt
    return image[:len(image) - cut]


def flipped(image, *places, bit=0x10):
    """The image with that bit of the bytes at these places flipped, and nothing else."""
    made = bytearray(image)
    for at in places:
        made[at] ^= bit
    return made


def le(number, size=4):
    return number.to_bytes(size, "little")


def add_examples(cases):
    """The examples of document 01."""
    small = build([256])
    small[40:288] = bytes(248)
    small[303] = 0xEE
    cases.image(small, (0, 304, 0x40080400, 1, 1))
    flagged = small[:23] + b"\x01" + small[24:]
    cases.image(flagged + digest(flagged), (0, 336, 0x40080400, 1, 1))
    cases.image(flagged + bytes(32), (30, 304))
    cases.image((flagged + bytes(32))[:335], (27, 288))
    cases.image(small[:303], (27, 288))
    cases.image(build([252, 8]), (26, 32))
    cases.image(build([254, 8]), (25, 24))
    cases.image(build([256, 8]), 0)


def add_header_faults(cases):
    for length in (0, 1, 23, 24, 39, 287):
        cases.image(build([256]), (20, 0), length)
    cases.image(build([256])[:288], (27, 288))
    for magic in (0, 0xE8, 0xEA, 0xFF):
        cases.image(build([256], magic=magic), (21, 0))
    for count in (0, 17, 18, 128, 255):
        cases.image(build([256], count=count), (22, 1))
    cases.image(build([256] + [4] * 16), (22, 1))
    for chip, settings in ((1, 0), (0, 1), (0x0100, 0), (0, 0x0100), (0x0102, 0x0201), (0xFFFF, 0xFFFE)):
        cases.image(build([256], chip=chip), (23, 12), chip=settings)
        cases.image(build([256], chip=chip), 0, chip=chip)
    for flag in (2, 3, 0x80, 0xFF):
        cases.image(build([256], puts=[(23, le(flag, 1))], more=64), (24, 23))


def add_segment_faults(cases):
    sixteen = [256] + [4] * 15
    last = 24 + 264 + 14 * 12  # the header of the sixteenth segment
    cases.image(build(sixteen), (0, 480))
    sizes = (1, 2, 3, 254, LAST, LAST - 3, (1 << 32) - 32, (1 << 32) - 28, (1 << 32) - 24, 1 << 31, IMAGES)
    for size in sizes:
        cases.image(build([256], puts=[(28, le(size))]), (25, 24))
        cases.image(build(sixteen, puts=[(last + 4, le(size))]), (25, last))
    end = len(build(sixteen))
    cases.image(build(sixteen, puts=[(last + 4, le(end - last - 8))]), (27, end))  # data up to the end, and one word past it
    cases.image(build(sixteen, puts=[(last + 4, le(end - last - 4))]), (25, last))
    cases.image(build([256], puts=[(28, le(272))]), (27, 304))
    cases.image(build([256], puts=[(28, le(276))]), (25, 24))
    for kept in (0, 1, 7, 8, 11):  # the sixteenth header or its data is cut
        cases.image(build(sixteen), (25, last), last + kept)
    cases.image(build(sixteen), (27, last + 12), last + 12)
    for first in range(0, 15, 5):  # the first bad segment is the one named
        at = 24 if first == 0 else 24 + 264 + 12 * (first - 1)
        cases.image(build(sixteen, puts=[(at + 4, le(5)), (last + 4, le(6))]), (25, at))


def add_descriptor_faults(cases):
    for length in (0, 4, 128, 252):
        cases.image(build([length, 300]), (26, 32))
    for place in range(4):
        cases.image(build([256], puts=[(32 + place, le(9, 1))]), (26, 32))
    for secure in (0, 1, 31, 32):
        cases.image(build([256], secure=secure), (0, 304, 0x40080400, secure, 1))
    for secure in (33, 0x0100, 0x01000000, LAST):
        cases.image(build([256], secure=secure), (29, 36))
    for chip in (5, 16, 0x0100, 0xFFFF):
        for secure in (0, 1, 15, 16):
            cases.image(build([256], secure=secure, chip=chip), (0, 304, 0x40080400, secure, 1), chip=chip)
        for secure in (17, 32, 33, 0x0100, 0x01000000, LAST):
            cases.image(build([256], secure=secure, chip=chip), (29, 36), chip=chip)


def add_end_faults(cases):
    for length in (256, 260, 264, 268, 272):  # e is a multiple of 16 in the first and the last
        e = 32 + length
        padded = e - e % 16 + 16
        assert padded == {288: 304, 292: 304, 296: 304, 300: 304, 304: 320}[e]
        cases.image(build([length]), (0, padded))
        cases.image(build([length], more=5), (0, padded))
        cases.image(build([length], cut=1), (27, e))
        cases.image(build([length])[:e], (27, e))
        cases.image(build([length], flag=1), (0, padded + 32))
        cases.image(build([length], flag=1, cut=1), (27, e))
        cases.image(build([length], flag=1, cut=32), (27, e))
        cases.image(build([length], wrong=1), (28, padded - 1))
    for k in range(8):
        cases.image(build([256], wrong=1 << k), (28, 303))
    for place in (41, 287):  # data counts; load addresses, padding and what follows do not, but for the digest
        cases.image(build([256], puts=[(place, le(FILLED[place] ^ 0x10, 1))]), (28, 303))
    for place in (24, 27, 288, 302, 336, 340):
        cases.image(build([256], flag=1, more=8, puts=[(place, le(FILLED[place] ^ 0x10, 1))]), (0, 336))
    for place in (304, 335):
        cases.image(flipped(build([256], flag=1, more=8), place), (30, 304))


def add_digests(cases):
    """A digest that is right, each of its bytes wrong, and bytes changed that no other test looks at."""
    for length in (256, 272, 288, 304):  # by the bytes in the last block
        padded = 48 + length
        image = build([length], flag=1)
        cases.image(image, (0, padded + 32))
        for k in range(32):
            cases.image(flipped(image, padded + k, bit=1 << k % 8), (30, padded))
        for place in (4, 14, 24, padded - 16, padded - 2):  # entry address, header, load address, padding
            cases.image(flipped(image, place), (30, padded))
            cases.image(build([length], flag=1, puts=[(place, le(image[place] ^ 0x10, 1))]), (0, padded + 32))
    add_cancelling_bits(cases)
    add_other_digests(cases)
    for chip in (0, 16):
        cases.image(build([256, 8], flag=1, chip=chip), (0, 352, 0x40080400, 1, 2), chip=chip)
        cases.image(build([256, 8], flag=1, chip=chip, spoilt=1), (30, 320), chip=chip)
        for secure in (0, width(chip), width(chip) + 1, LAST):
            cases.image(build([256, 8], flag=1, chip=chip, spoilt=1, secure=secure), 30 if secure <= width(chip) else 29, chip=chip)
            cases.image(build([256, 8], flag=1, chip=chip, spoilt=1, secure=secure, wrong=1), 28, chip=chip)
    for more in (1, 31, 32, 64):  # bytes after the image: with flag 0 a wrong digest is only that
        cases.image(build([256], flag=1, more=more), (0, 336))
        cases.image(build([256], flag=1, more=more, spoilt=1), (30, 304))
        cases.image(build([256], more=more), (0, 304))


def add_cancelling_bits(cases):
    """Two flipped bits of data that cancel in the xor, in one segment and in two: accepted without a digest, refused with one, unless
    the digest is made of them."""
    for places in ((40, 41), (40, 287), (41, 296), (299, 303), (287, 304)):
        for bit in (1, 0x80):
            for flag in (0, 1):
                image = build([256, 12], flag=flag)
                changed = flipped(image, *places, bit=bit)
                cases.image(image, (0, 320 + 32 * flag))
                cases.image(changed, (30, 320) if flag else (0, 320))
                if flag:
                    cases.image(changed[:320] + digest(changed[:320]), (0, 352))


def add_other_digests(cases):
    """Padding that is not zero counts, and digests of other bytes than all those before the digest are wrong, as is another order of a
    right one's bytes."""
    image = build([260, 4], flag=1, more=64)
    e, padded = 304, 320
    before = bytes(image[:padded])
    right = digest(before)
    zero = before[:e] + bytes(15) + before[-1:]
    assert before[e:-1] != bytes(15)
    cases.image(zero + digest(zero), (0, 352))
    cases.image(zero + right, (30, padded))
    wrong = [digest(zero), digest(before[:e]), digest(before[:-1]), digest(before[24:]), digest(before[32:e]), digest(before + bytes(32)),
             digest(before + right), digest(image), digest(before[:23] + b"\0" + before[24:]), digest(right), digest(b""), bytes(32),
             b"\xff" * 32, right[::-1], right[16:] + right[:16], right[1:] + right[:1], right[:31] + bytes(1), bytes(1) + right[1:],
             b"".join(right[k:k + 4][::-1] for k in range(0, 32, 4)), bytes(byte ^ 0xFF for byte in right)]
    for other in wrong:
        assert len(other) == 32 and other != right
        cases.image(before + other, (30, padded))
        cases.image(before + other + right, (30, padded))
    for place in (1, 4, 16, 32):  # the right one stands later
        cases.image(before + bytes(place) + right, (30, padded))
    cases.image(before[:23] + b"\0" + before[24:] + wrong[0], (0, padded))


# a minimum and a maximum revision, and the first and the last revision that fit, if any does
FITTING = {
    (0, 0): (0, 65535), (0, 65535): (0, 65535), (300, 0): (300, 65535), (300, 65535): (300, 65535), (0, 300): (0, 300),
    (300, 300): (300, 300), (199, 399): (199, 399), (300, 301): (300, 301),
    (301, 300): None, (2, 1): None, (400, 100): None, (65535, 65534): None, (0x8000, 0x7FFF): None, (0x0201, 0x0102): None,
    (1, 0): (1, 65535), (0, 1): (0, 1), (1, 1): (1, 1), (0, 65534): (0, 65534), (65534, 0): (65534, 65535),
    (65535, 0): (65535, 65535), (65535, 65535): (65535, 65535), (0x00FF, 0): (0x00FF, 65535), (0x0100, 0): (0x0100, 65535),
    (0, 0x00FF): (0, 0x00FF), (0, 0x0100): (0, 0x0100), (0, 0xFF00): (0, 0xFF00), (0x0102, 0x0201): (0x0102, 0x0201),
    (0x7FFF, 0x8000): (0x7FFF, 0x8000), (0x8000, 0): (0x8000, 65535), (0, 0x7FFF): (0, 0x7FFF),
}


def around(limits):
    """The revisions beside each limit and beside the limit with its bytes swapped, its neighbours by 256, and the lowest and highest."""
    swapped = [(limit % 256) * 256 + limit // 256 for limit in limits]
    near = {0, 1, 65534, 65535, *limits, *swapped, *[limit + more for limit in limits for more in (-256, -1, 1, 256)]}
    return sorted(revision for revision in near if 0 <= revision <= 65535)


def add_revisions(cases):
    """Revisions at the edges of the minimum and the maximum; both bytes of a field count, the bytes beside the fields don't."""
    for limits, fitting in FITTING.items():
        for revision in around(limits):
            fits = fitting is not None and fitting[0] <= revision <= fitting[1]
            cases.image(build([256], limits=limits), (0, 304) if fits else (31, 15), revision=revision)
    for beside in (0, 1, 0x7F, 0xFF):
        puts = [(14, le(beside, 1)), (19, le(beside, 1))]
        for first, last in ((300, 400), (0x0102, 0x0201), (0x0100, 0x0200), (1, 2), LIMITS):
            for revision, number in ((first - 1, 31), (first, 0), (last, 0), (last + 1, 31)):
                cases.image(build([256], limits=(first, last), puts=puts), number, revision=revision)
    for chip in (5, 16, 300, 0xFFFF):  # the revision is not the chip id, and counts on every chip
        for revision, number in ((299, 31), (300, 0), (400, 0), (401, 31), (chip, 0 if chip == 300 else 31)):
            cases.image(build([256], limits=(300, 400), chip=chip), number, chip=chip, revision=revision)


# in the order of the tests
FAULTS = {
    21: {"magic": 0x9E},
    22: {"count": 17},
    23: {"chip": 0x0900},
    31: {"limits": (REVISION + 1, 65535)},
    24: {"puts": [(23, le(2, 1))]},
    25: {"puts": [(28, le(262))]},
    26: {"descriptor": 0xABCD5433},
    27: {"cut": 1},
    28: {"wrong": 0x40},
    29: {"secure": 33},
    30: {"spoilt": 0x40},
}


def add_pairs(cases):
    """Two faults at once: the earlier test's number is given. After a bad segment there is no end, so 25 goes with neither 27 nor 28."""
    for number, fault in FAULTS.items():
        cases.image(build([260, 4], flag=1, **fault), number)
        cases.image(build([200], flag=1, **fault), 20)
    for first, second in itertools.combinations(FAULTS, 2):
        if (first, second) in ((25, 27), (25, 28)):
            continue
        fault = {**FAULTS[first], **FAULTS[second]}
        fault["puts"] = FAULTS[first].get("puts", []) + FAULTS[second].get("puts", [])
        cases.image(build([260, 4], flag=1, **fault), first)
        if 31 in (first, second):  # above the maximum, and outside of both
            for limits in ((0, REVISION - 1), (REVISION + 1, REVISION - 1)):
                cases.image(build([260, 4], flag=1, **{**fault, "limits": limits}), first)
    cases.image(build([256], count=0, secure=33), 22)
    cases.image(build([252], wrong=1), 26)


def add_large_images(cases):
    cases.fill()
    # the segments of source document 002, with other data
    lengths = [0x13CE0, 0, 0, 0x28E0, 0, 0x400, 0x9600, 0x62E4C, 0x6CEC, 0, 4, 0, 0]
    assert 24 + sum(8 + length for length in lengths) == 0x89B7C
    image = build(lengths, flag=1)
    cases.image(image, (0, 564128, 0x40080400, 1, 13))
    for place in (564096, 564127, 4, 0x89B74, 0x89B7C):  # the digest's first and last byte, the header, a load address, the padding
        cases.image(flipped(image, place), (30, 564096))
    cases.image(flipped(image, 0x13CFF, 0x89B6B), (30, 564096))  # data of the first segment and of the last one that has any
    cases.image(build(lengths, flag=1, cut=1), (27, 0x89B7C))
    cases.image(build(lengths, flag=1, wrong=0x80), (28, 0x89B7F))
    cases.image(build(lengths), (0, 564096))
    cases.image(build(lengths, puts=[(0x89B78, le(2))]), (25, 0x89B74))
    whole = IMAGES - 24 - 8 - 4  # up to the buffer's last byte
    cases.image(build([whole]), (0, IMAGES))
    cases.image(build([whole], wrong=2), (28, IMAGES - 1))
    cases.image(build([whole]), (27, IMAGES - 4), IMAGES - 1)
    cases.image(build([whole], puts=[(28, le(whole + 4))]), (27, IMAGES))
    cases.image(build([whole], puts=[(28, le(whole + 8))]), (25, 24))
    image = build([whole - 32], flag=1)
    cases.image(image, (0, IMAGES))
    cases.image(flipped(image, IMAGES - 1), (30, IMAGES - 32))
    cases.image(image, (27, IMAGES - 36), IMAGES - 1)
    cases.fill()


def add_random_images(cases, rand):
    places = [0, 1, 4, 7, 12, 13, 14, 15, 16, 17, 18, 19, 23, 28, 29, 32, 35, 36, 37]
    for _ in range(60):
        lengths = [256 + 4 * rand.randrange(8)] + [4 * rand.randrange(12) for _ in range(rand.choice((0, 1, 1, 2, 3)))]
        more = rand.randrange(40)
        image = build(lengths, flag=rand.randrange(2), secure=rand.choice((0, 7, 32)), entry_address=rand.getrandbits(32), more=more)
        cases.image(image, 0)
        for _ in range(3):  # a byte of it changed, or its end cut
            wrong = bytearray(image)
            at = rand.choice(places + [len(image) - more - 1, rand.randrange(len(image))])
            wrong[at] = rand.randrange(256)
            cases.image(wrong, length=len(image) - rand.choice((0, 0, 0, 1, 40)))
    for _ in range(10):
        lengths = [256] + [4 * rand.randrange(3) for _ in range(rand.randrange(4, 16))]
        cases.image(build(lengths, flag=rand.randrange(2)), 0)


def add_all(cases):
    rand = random.Random(20261116)
    layers = Layers(cases)
    add_efuse(layers, rand)
    add_sixteen_bits(layers, random.Random(6))
    for add in (add_right_lists, add_many_slots, add_wrong_lists, add_overlaps, add_list_ends):
        add(layers)
    add_random_lists(layers, rand)
    add_parts(layers)
    for add in (add_examples, add_header_faults, add_revisions, add_segment_faults, add_descriptor_faults, add_end_faults, add_digests,
                add_pairs):
        add(layers)
    add_large_images(layers)
    add_random_images(layers, rand)
    assert layers.met == {0, *range(20, 32)}
