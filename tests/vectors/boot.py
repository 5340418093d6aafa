"""Cases of boot and of power cuts, and the rules of documents 01 and 02 of boot and demand 3's claim.

Independent of the Rattle code.
"""
import collections
import itertools
import random
import struct
import sys

from cases import LAST, SECTOR, Cases, total, with_revision
from layers import FACTORY, add_list, check_image, checksum, digest, flipped, listing, raised, slots_in, version, width
from records import (ABORTED, BLANK, FF, INVALID, LABEL, NEW, PENDING, STATES, UNDEFINED, VALID, add_stores, named, put_store, reading,
                     record, shown, usable)

UNIT = 65536
SIZE = Cases.size

# a revision of None stands for the next of REVISIONS, by turns
Settings = collections.namedtuple("Settings", "rollback anti efuse chip revision")
Reply = collections.namedtuple("Reply", "number app sector register length entry")
Image = collections.namedtuple("Image", "length entry version segments")


# ---- the apps in the flash

class Flash:
    """The checks of the images in a flash, each made once while the flash stays as it is."""

    def __init__(self, content):
        self.bytes = content
        self.checked = {}
        self.met = set()

    def image(self, place, settings):
        """The image in a part of the flash, or None where it is refused."""
        checked = place, settings.chip, settings.revision
        if checked not in self.checked:
            self.checked[checked] = check_image(bytes(self.bytes[slice(*place)]), settings.chip, settings.revision)
        answer = self.checked[checked]
        self.met.add(answer[0])
        return Image(*answer[1:]) if answer[0] == 0 else None


def passes(places, flash, settings, app):
    found = flash.image(places[app], settings)
    return found is not None and (not settings.anti or found.version >= version(settings.efuse, settings.chip))


def refused(number, settings):
    return Reply(number, None, None, settings.efuse, 0, 0)


def restated(sector, state):
    """The sector rewritten with its record in another state."""
    read = reading(sector[:32])
    return record(read.sequence, state, read.label) + FF * (SECTOR - 32)


# ---- boot

def boot(words, length, flash, otadata, settings):
    """The reply, and otadata as it is left."""
    places = listing(words, length)
    if places is None:
        return refused(1, settings), otadata
    if len(otadata) != 2 * SECTOR:
        return refused(2, settings), otadata
    if settings.anti and (not settings.rollback or FACTORY in places):
        return refused(3, settings), otadata
    slots = slots_in(places)
    sectors = [otadata[:SECTOR], otadata[SECTOR:]]
    reads = [reading(sector[:32]) for sector in sectors]

    # step 1
    for k in (0, 1):
        if settings.rollback and reads[k] and reads[k].state == PENDING:
            sectors[k] = restated(sectors[k], ABORTED)
            reads[k] = reading(sectors[k][:32])

    # step 2
    tries = [k for k in (0, 1) if usable(reads[k])]
    if len(tries) == 2 and reads[1].sequence > reads[0].sequence:
        tries = [1, 0]
    barred = [named(read.sequence, slots) for read in reads if read and not usable(read)]
    ways = [(named(reads[k].sequence, slots), k) for k in tries]
    ways += [(FACTORY, None)] if FACTORY in places else []
    searched = [(slot, None) for slot in range(slots) if slot not in barred]
    chosen = next((way for way in ways + searched if passes(places, flash, settings, way[0])), None)
    if chosen is None:
        return refused(10, settings), b"".join(sectors)
    app, through = chosen
    found = flash.image(places[app], settings)

    # step 3
    if settings.rollback and through is not None and reads[through].state == NEW:
        sectors[through] = restated(sectors[through], PENDING)

    # step 4
    register = settings.efuse
    if settings.anti and chosen in searched and reads == [None, None]:
        register = raised(register, found.version, settings.chip)
    return Reply(0, app, through, register, found.length, found.entry), b"".join(sectors)


# ---- demand 3, as it is claimed

def reads_after(before, rec, k):
    """What a sector with these bytes reads as once its rewrite with a good record is cut at k: as before, as the record or as none.
    The sequence is erased first and programmed last, and no other sequence has its check word."""
    if k <= 3 and before[:k] == FF * k:
        return reading(before[:32])
    if k >= 4124 and rec[:4128 - k] == FF * (4128 - k):
        return reading(rec)
    return None


def why_none(before, rec, k):
    """Why it then reads as none, where it does. With none of the sequence in place it is blank, or a bad sequence if other bytes are there;
    with a part of it, filled up with FF, it is another sequence with a check word not its own. So the state is never the reason."""
    left = FF * k + before[k:32] if k < 32 else FF * min(32, 4128 - k) + rec[4128 - k:]
    return "blank" if left == BLANK else "bad-sequence" if left.startswith(FF * 4) else "bad-check"


def next_boot(p, read, untouched, places, flash, settings):
    """The reply of the next boot and what the two sectors read as after it, where sector p reads so and the other one is untouched.
    The untouched record is usable, not pending while rollback is on, and names an app that passes."""
    slots = slots_in(places)
    both = {p: read, 1 - p: untouched}
    if read is not None and settings.rollback and read.state == PENDING:
        both[p] = read._replace(state=ABORTED)
    first = usable(both[p]) and (both[p].sequence, 1 - p) > (untouched.sequence, p)
    start = p if first and passes(places, flash, settings, named(both[p].sequence, slots)) else 1 - p
    app = named(both[start].sequence, slots)
    found = flash.image(places[app], settings)
    reply = Reply(0, app, start, settings.efuse, found.length, found.entry)
    if settings.rollback and both[start].state == NEW:
        both[start] = both[start]._replace(state=PENDING)
    return reply, (both[0], both[1])


# ---- cases and their lines

def numbers(reply):
    kind = 0 if reply.app is None else 1 if reply.app == FACTORY else 2
    return (reply.number, kind, reply.app if kind == 2 else 0, 2 if reply.sector is None else reply.sector, *reply[3:])


def told(read, why):
    """What a sector reads as, or why there is none."""
    return record(read.sequence, read.state, read.label).hex() if read else why


def pair(seed):
    """The start and the step of a sector's filler: seed 0 leaves the sector erased."""
    return (seed, 1) if seed else (0xFF, 0)


class Boots:
    """Adds the cases of boot, and keeps how many boots and rewrites there are, the numbers that were met, and what the images are made of."""

    def __init__(self, cases):
        self.cases = cases
        self.flash = Flash(cases.flash)
        self.traits = {name: dict(made_of) for name, made_of in MADE_OF.items()}
        self.length = 0
        self.met = collections.Counter()
        self.boots = self.rewrites = 0

    def add(self, name, settings, b, laying):
        flags = laying.get("flags", 0) + settings.rollback + 2 * settings.anti
        body = with_revision(laying.get("body", b""), settings.revision)
        self.cases.add(name, settings.efuse, b, self.length, settings.chip, flags, body)

    def of_turn(self, settings):
        """The settings with a revision: their own, or the one whose turn it is."""
        if settings.revision is not None:
            return settings
        return settings._replace(revision=REVISIONS[(self.boots + self.rewrites) % len(REVISIONS)])

    def clear(self):
        self.cases.fill(0, SIZE, (0, 0))

    def lay(self, name, **traits):
        """Lays an image anew, with some traits changed from now on, and so with a digest of its own."""
        self.traits[name] |= traits
        self.cases.patch(UNIT * UNITS[name], image(**self.traits[name]))
        self.flash.checked = {}

    def list(self, words, length=SIZE):
        """The list and the flash of the boots that follow."""
        if tuple(words) != self.cases.words or length != self.length:
            add_list(self.cases, words, length)
            self.length = length

    def places(self):
        return listing(self.cases.words, self.length)

    def model(self, otadata, settings):
        return boot(self.cases.words, self.length, self.flash, otadata, settings)

    def stores(self, p, rec, k):
        add_stores(self.cases, p, rec, range(k))

    def boot(self, settings, recs=None, want=None, length=2 * SECTOR, seeds=(0, 0), writes=None):
        """A boot on these records, or on otadata as it stands. What is wanted is how the reply begins, and which sectors change."""
        cases, settings = self.cases, self.of_turn(settings)
        self.add("boot", settings, length, {} if recs is None else cases.on(recs, [pair(seed) for seed in seeds]))
        before = [cases.sector(k) for k in (0, 1)]
        reply, after = self.model(bytes(cases.buffer[:length]), settings)
        assert want is None or reply[:len(want)] == want, (reply, want)
        cases.buffer[:length] = after
        changed = [k for k in (0, 1) if cases.sector(k) != before[k]]
        assert writes is None or changed == list(writes), (changed, writes)
        self.watch(reply, settings)
        cases.say("boot", *numbers(reply), total(cases.buffer))
        self.boots += 1

    def watch(self, reply, settings):
        """What holds of every boot: none is started through an invalid or aborted record, nor below the eFuse version."""
        self.met[reply.number] += 1
        if reply.number != 0:
            assert reply[1:] == (None, None, settings.efuse, 0, 0)
            return
        places = self.places()
        assert passes(places, self.flash, settings, reply.app)
        assert (reply.length, reply.entry) == MADE[places[reply.app][0] // UNIT]
        if reply.sector is not None:
            read = reading(self.cases.sector(reply.sector, 32))
            assert usable(read) and named(read.sequence, slots_in(places)) == reply.app

    def cuts(self, settings, p, olds, rec, earlier=(), seeds=(0, 0), seen=None):
        """All cuts of a rewrite of sector p, after earlier rewrites that were cut. What follows each is what demand 3 claims, and
        what the model of boot says too. What is seen is the sectors started through, in the order of the cuts."""
        cases, settings = self.cases, self.of_turn(settings)
        assert all(old == BLANK or reading(old) for old in (olds[p], *[other for other, _ in earlier])) and reading(rec)
        pairs = [pair(seed) for seed in seeds]
        for turn, (other, k) in enumerate(earlier):
            add_stores(cases, p, other, range(k), **cases.on(olds, pairs, other) if turn == 0 else {})
        self.add("cuts", settings, p, cases.lent(rec) if earlier else cases.on(olds, pairs, rec))
        runs = []
        for k, line in enumerate(self.followers(settings, p, rec)):
            if not runs or runs[-1][2] != line:
                runs.append([k, k, line])
            runs[-1][1] = k
        through = [sector for sector, _ in itertools.groupby(run[2][4] for run in runs)]
        assert seen is None or through == list(seen), (through, seen)
        for start, end, line in runs:
            cases.say("cuts", start, end, *line)
        self.rewrites += 1

    def followers(self, settings, p, rec):
        """What follows each cut, by the claim and by the model of boot."""
        places = self.places()
        sectors = [bytearray(self.cases.sector(k)) for k in (0, 1)]
        before, untouched = bytes(sectors[p]), reading(bytes(sectors[1 - p][:32]))
        assert usable(untouched) and not (settings.rollback and untouched.state == PENDING)
        assert passes(places, self.flash, settings, named(untouched.sequence, slots_in(places)))
        for k in range(4129):
            if k > 0:
                put_store(sectors[p], rec, k - 1)
            claimed = self.claimed(p, reads_after(before, rec, k), why_none(before, rec, k), untouched, places, settings)
            replied, after = self.model(bytes(sectors[0] + sectors[1]), settings)
            modelled = shown(sectors[p]), *numbers(replied), shown(after[:SECTOR]), shown(after[SECTOR:])
            if claimed != modelled:
                sys.exit(f"the claim and the model of boot differ at cut {k}: {claimed} {modelled}")
            yield claimed

    def claimed(self, p, read, why, untouched, places, settings):
        """The numbers of what demand 3 claims, where sector p reads so; boot leaves it alone where it reads as none."""
        reply, left = next_boot(p, read, untouched, places, self.flash, settings)
        assert usable(left[reply.sector]) and passes(places, self.flash, settings, reply.app)
        return told(read, why), *numbers(reply), told(left[0], why), told(left[1], why)


# ---- the flash: an image at the start of each unit of 65,536 bytes

CHIP = 0x0302
OTHER_CHIP = 0x0203
# major x 100 + minor, and among them the numbers of the chip ids
REVISIONS = (0, 1, 99, 100, 199, 300, 399, CHIP, OTHER_CHIP, 65534, 65535)


def image(size, flag, entry, secure=3, chip=CHIP, limits=(0, 0), wrong=0, puts=(), spoilt=()):
    """An image with one segment of zeros but for its descriptor. The limits are its minimum and maximum revision. The puts are laid over
    it last, before the digest, if it has one, and a bit of the spoilt bytes is flipped after that."""
    e = 32 + size
    padded = e - e % 16 + 16
    made = bytearray(padded + 32 * flag)
    struct.pack_into("<BB2xI", made, 0, 0xE9, 1, entry)
    struct.pack_into("<H", made, 12, chip)
    struct.pack_into("<HH", made, 15, *limits)
    made[23] = flag
    struct.pack_into("<II", made, 24, 0x3F400020, size)
    struct.pack_into("<II", made, 32, 0xABCD5432, secure)
    made[padded - 1] = checksum([made[32:e]]) ^ wrong
    for at, data in puts:
        made[at:at + len(data)] = data
    if flag:
        made[padded:] = digest(made[:padded])
    return bytes(flipped(made, *spoilt))


GOOD = list("abcdefghijklmnopq")  # sixteen slots and factory
AROUND = (15, 16, 17, 32, 33)  # the versions on chips 0, 5 and 16
TRAITS = {name: {} for name in GOOD}
TRAITS |= {f"v{secure}": {"secure": secure} for secure in (0, 1, 2, 4, 5, 16)}
TRAITS |= {f"v{secure} of {chip}": {"secure": secure, "chip": chip} for chip in (0, 5, 16) for secure in AROUND}
TRAITS |= {
    "other chip": {"chip": OTHER_CHIP},
    "whole": {"size": 4048, "flag": 0},  # 4,096 bytes, and 16 or 32 bytes more
    "padding": {"size": 4064, "flag": 0},
    "flagged": {"flag": 1},
    "digest": {"size": 4048, "flag": 1},
}
BAD = {
    "magic": (21, {"puts": [(0, b"\xE8")]}),
    "no magic": (21, {"puts": [(0, b"\x00")]}),
    "no segment": (22, {"puts": [(1, b"\x00")]}),
    "segments": (22, {"puts": [(1, b"\x11")]}),
    "chip": (23, {"chip": CHIP + 1}),
    "revision": (31, {"limits": (300, 299)}),  # whatever the board's
    "no revision": (31, {"limits": (65535, 65534)}),
    "flag": (24, {"puts": [(23, b"\x02")]}),
    "odd length": (25, {"puts": [(28, b"\x02")]}),
    "length": (25, {"puts": [(31, b"\x80")]}),
    "short": (26, {"size": 252}),
    "descriptor": (26, {"puts": [(35, b"\xAC")]}),
    "checksum": (28, {"wrong": 0xEC}),
    "v17": (29, {"secure": 17}),
    "v32": (29, {"secure": 32}),
    "v33": (29, {"secure": 33}),
    "v64": (29, {"secure": 64}),
    "first digest byte": (30, {"flag": 1, "spoilt": [-32]}),
    "last digest byte": (30, {"flag": 1, "spoilt": [-1]}),
    "two bits": (30, {"flag": 1, "spoilt": [100, 200]}),
}
TRAITS |= {name: traits for name, (_, traits) in BAD.items()}


def numbered(k, traits):
    """What the image of unit k is made of. Each has a length and an entry address of its own; every other one has a digest, and every
    other two have the maximum revision 65,535 instead of 0, unless the traits decide."""
    entry = (0x40080400 + 0x01020304 * k) % (1 << 32)
    return {"size": 256 + 16 * k, "flag": k % 2, "entry": entry, "limits": (0, (0, 65535)[k // 2 % 2]), **traits}


MADE_OF = {name: numbered(k, traits) for k, (name, traits) in enumerate(TRAITS.items())}
IMAGES = {name: image(**traits) for name, traits in MADE_OF.items()}
# by unit, the whole length and the entry address
MADE = [(len(made), int.from_bytes(made[4:8], "little")) for made in IMAGES.values()]
assert len(MADE) == len({length for length, _ in MADE}) == len({entry for _, entry in MADE})
MADE_LIMITS = {name: traits["limits"] for name, traits in MADE_OF.items()}
UNITS = {name: unit for unit, name in enumerate(IMAGES)}
EMPTY = SIZE // UNIT - 1
assert len(UNITS) <= EMPTY  # the last unit stays zero
FAILING = list(BAD) + ["other chip", "padding", "digest", "empty"]


def listed(slots, factory=None, place=None, order=None, sizes={}):
    """The list of these slots, each given by the image in its part, which is a sector long if no size is said. Factory goes before
    the entry of that place, or last."""
    entries = [(16 + slot, name) for slot, name in enumerate(slots)]
    entries = [entries[slot] for slot in order or range(len(slots))]
    if factory is not None:
        entries.insert(len(slots) if place is None else place, (0, factory))
    words = []
    for subtype, name in entries:
        words += [subtype, UNIT * UNITS.get(name, EMPTY), sizes.get(name, SECTOR)]
    return words


def add_flash(cases):
    cases.clear()
    for name in IMAGES:
        cases.lay(name)


ROLLBACK = Settings(True, False, 7, CHIP, None)
PLAIN = ROLLBACK._replace(rollback=False)
ANTI = ROLLBACK._replace(anti=True)
ALL_SETTINGS = (PLAIN, ROLLBACK, ANTI)
LABELS = (LABEL, bytes(20))
DAMAGED = {
    "check word": record(5, VALID)[:31] + b"\x00",
    "sequence bit": b"\x04" + record(5, VALID)[1:],
    "state 5": record(5, 5),
    "state 0x100": record(5, 0x100),
    "state -2": record(5, LAST - 1),
    "sequence 0": record(0, VALID),
    "sequence -1": record(LAST, VALID),
    "zeros": bytes(32),
}


def add_examples(cases):
    """The example of document 01, and the record of another one."""
    cases.list(listed(["a", "b"]))
    cases.boot(ROLLBACK, (record(4, VALID), record(5, ABORTED)), (0, 1, 0, 7), writes=())
    cases.boot(ROLLBACK, (record(5, ABORTED), record(4, VALID)), (0, 1, 1, 7), writes=())
    first = bytes.fromhex("01000000" + 24 * "ff" + "9a984347")
    cases.boot(PLAIN, (first, BLANK), (0, 0, 0, 7), writes=())
    cases.boot(PLAIN, (BLANK, first), (0, 0, 1, 7), writes=())


def add_active(cases):
    """Either sector active, by the higher sequence; sector 0 on a tie."""
    for n in (2, 3, 8, 9, 16):
        cases.list(listed(GOOD[:n], GOOD[n], place=0))
        for low, high in ((1, 2), (n, n + 1), (n - 1, 2 * n), (255, 256), (0x01000000, 0x01000001), (1, LAST - 1),
                          (LAST - 2, LAST - 1)):
            slot = (high - 1) % n
            cases.boot(ROLLBACK, (record(low, VALID), record(high, UNDEFINED)), (0, slot, 1), writes=())
            cases.boot(ROLLBACK, (record(high, UNDEFINED), record(low, VALID)), (0, slot, 0), writes=())
            cases.boot(PLAIN, (record(high, UNDEFINED), BLANK), (0, slot, 0), writes=())
            cases.boot(PLAIN, (BLANK, record(high, VALID)), (0, slot, 1), writes=())
        for sequence in (1, n, n + 2, LAST - 1):
            slot = (sequence - 1) % n
            for states, sector in (((VALID, VALID), 0), ((UNDEFINED, VALID), 0), ((INVALID, VALID), 1), ((VALID, ABORTED), 0)):
                cases.boot(ROLLBACK, [record(sequence, s, label) for s, label in zip(states, LABELS)], (0, slot, sector), writes=())
            cases.boot(ROLLBACK, [record(sequence, NEW, label) for label in LABELS], (0, slot, 0), writes=(0,))


def add_grid(cases):
    """Every state, no record and a damaged one in each sector, either with the higher sequence and with equal ones."""
    cases.list(listed(["v4", "v5", "v2"]))
    for settings in ALL_SETTINGS:
        for sequences in ((4, 6), (5, 5), (9, 8)):
            kinds = [[record(sequences[k], state, LABELS[k]) for state in STATES] + [BLANK, DAMAGED["state 5"]] for k in (0, 1)]
            for recs in itertools.product(*kinds):
                cases.boot(settings, recs)


def add_fallbacks(cases, bads=("magic", "checksum", "v33", "descriptor"), revision=None):
    """Whether the active record's app passes, the other one's, factory's and the slot that none names; factory first and last."""
    rollback, plain = ROLLBACK._replace(revision=revision), PLAIN._replace(revision=revision)
    for passing in itertools.product((True, False), repeat=4):
        names = [good if ok else bad for ok, good, bad in zip(passing, "abcd", bads)]
        for place in (None, 0, 3):
            of_active, of_other, of_factory, unnamed = names
            cases.list(listed([unnamed, of_active, of_other], None if place is None else of_factory, place))
            for sector in (0, 1):
                ways = [(passing[0], 1, sector), (passing[1], 2, 1 - sector), (passing[2] and place is not None, FACTORY, None),
                        (passing[3], 0, None)]
                want = next(((0, app, through, 7) for ok, app, through in ways if ok), (10, None, None, 7))
                for settings, states in ((rollback, (VALID, UNDEFINED)), (rollback, (NEW, NEW)), (plain, (NEW, PENDING))):
                    recs = record(5, states[0]), record(3, states[1])
                    marks = [want[2]] if settings.rollback and states[0] == NEW and want[2] is not None else []
                    cases.boot(settings, recs if sector == 0 else recs[::-1], want, writes=marks)


def add_same_slot(cases):
    """Both records name one slot: the active one's sector is used; if the active one is barred, the other still names the slot."""
    for n in (2, 3, 8, 9, 16):
        for slot in (0, n - 1):
            low, high = slot + 1, slot + 1 + n
            cases.list(listed(GOOD[:n], GOOD[n]))
            for state in (VALID, NEW):
                cases.boot(ROLLBACK, (record(low, state), record(high, state)), (0, slot, 1), writes=[1] if state == NEW else [])
                cases.boot(ROLLBACK, (record(high, state), record(low, state)), (0, slot, 0), writes=[0] if state == NEW else [])
            cases.boot(ROLLBACK, (record(high, INVALID), record(low, NEW)), (0, slot, 1), writes=[1])
            cases.boot(ROLLBACK, (record(low, UNDEFINED), record(high, PENDING)), (0, slot, 0), writes=[1])
            cases.boot(PLAIN, (record(low, UNDEFINED), record(high, PENDING)), (0, slot, 1), writes=[])
            failing = GOOD[:slot] + ["magic"] + GOOD[slot + 1:n]
            cases.list(listed(failing, GOOD[n]))
            cases.boot(ROLLBACK, (record(low, NEW), record(high, NEW)), (0, FACTORY, None), writes=[])
            cases.list(listed(failing))
            cases.boot(ROLLBACK, (record(low, NEW), record(high, NEW)), (0, 0 if slot else 1, None), writes=[])


def add_search(cases):
    """The last search: upward from slot 0, past slots that fail and past those that an invalid or aborted record names."""
    for n in (2, 3, 8, 9, 16):
        for first in range(n):  # no record at all
            cases.list(listed(FAILING[:first] + GOOD[first:n]))
            cases.boot(ROLLBACK, (BLANK, BLANK), (0, first, None, 7), writes=())
        cases.list(listed(FAILING[:n]))
        cases.boot(ROLLBACK, (BLANK, BLANK), (10, None, None, 7), writes=())
        cases.list(listed(GOOD[:n], order=range(n - 1, -1, -1)))
        for slot in range(n):  # one is barred, in either sector, by any sequence that names it
            want = (0, 1 if slot == 0 else 0, None, 7)
            for state in (INVALID, ABORTED):
                cases.boot(ROLLBACK, (record(slot + 1, state), BLANK), want, writes=())
                cases.boot(PLAIN, (BLANK, record(slot + 1 + 5 * n, state)), want, writes=())
                cases.boot(ANTI, (record(slot + 1 + 7 * n, state), DAMAGED["check word"]), want, writes=())
        for sequences in ((1, 2), (2, 1), (1, n), (n, n + 1), (n + 1, 2 * n + 1), (1, 2 * n + 2), (LAST - 1, 1),
                          (LAST - 2, LAST - 1)):
            barred = [(sequence - 1) % n for sequence in sequences]  # two are barred
            free = [slot for slot in range(n) if slot not in barred]
            want = (0, free[0], None, 7) if free else (10, None, None, 7)
            for states in ((INVALID, ABORTED), (ABORTED, INVALID), (INVALID, INVALID)):
                cases.boot(ROLLBACK, [record(*pair) for pair in zip(sequences, states)], want, writes=())
            cases.boot(ROLLBACK, [record(sequence, PENDING) for sequence in sequences], want, writes=(0, 1))
            cases.boot(ANTI, (record(sequences[0], ABORTED), record(sequences[1], PENDING)), want, writes=(1,))
        for damaged in (record(0, INVALID), record(LAST, ABORTED), record(1, INVALID)[:31] + b"\x00", record(1, 7)):
            cases.boot(ROLLBACK, (damaged, BLANK), (0, 0, None, 7), writes=())  # no good record bars nothing
        cases.boot(ROLLBACK, (record(1, INVALID), record(2, VALID)), (0, 1, 1, 7), writes=())
    cases.list(listed(["a", "b", "magic", "c"]))  # barred, barred, fails, found; and barred, fails, fails, barred
    cases.boot(ROLLBACK, (record(5, INVALID), record(2, PENDING)), (0, 3, None, 7), writes=(1,))
    cases.list(listed(["a", "v33", "magic", "c"]))
    cases.boot(ROLLBACK, (record(5, INVALID), record(8, PENDING)), (10, None, None, 7), writes=(1,))
    cases.list(listed(["a", "magic", "c"]))  # the slot of a usable record fails, and another slot is barred
    cases.boot(ROLLBACK, (record(2, NEW), record(4, ABORTED)), (0, 2, None, 7), writes=())
    cases.boot(ROLLBACK, (record(6, INVALID), record(5, NEW)), (0, 0, None, 7), writes=())


def add_marks(cases):
    """Step 1: with rollback on each pending record is marked aborted, also where nothing is bootable; with it off none is."""
    one, two = record(5, PENDING, LABEL), record(6, PENDING, bytes(20))
    valid, lower = record(4, VALID), record(2, VALID, LABEL)
    cases.list(listed(["a", "b", "c"], "d"))
    cases.boot(ROLLBACK, (one, valid), (0, 0, 1), writes=(0,))
    cases.boot(ROLLBACK, (lower, two), (0, 1, 0), writes=(1,))
    cases.boot(ROLLBACK, (one, two), (0, FACTORY, None), writes=(0, 1))
    cases.boot(ROLLBACK, (two, one), (0, FACTORY, None), writes=(0, 1))
    cases.boot(ROLLBACK, (one, BLANK), (0, FACTORY, None), writes=(0,))
    cases.boot(ROLLBACK, (BLANK, two), (0, FACTORY, None), writes=(1,))
    cases.boot(ROLLBACK, (one, record(7, NEW, LABEL)), (0, 0, 1), writes=(0, 1))
    cases.boot(ROLLBACK, (record(3, NEW, LABEL), two), (0, 2, 0), writes=(0, 1))
    for recs, want in (((one, valid), (0, 1, 0)), ((lower, two), (0, 2, 1)), ((one, two), (0, 2, 1)), ((two, one), (0, 2, 0)),
                       ((one, BLANK), (0, 1, 0))):
        cases.boot(PLAIN, recs, want, writes=())
    cases.list(listed(["magic", "v33", "flag"], "short"))
    for settings, marks in ((ROLLBACK, True), (PLAIN, False)):
        for recs in itertools.product((one, valid, BLANK, record(9, NEW), record(9, ABORTED)), (two, lower, BLANK, record(8, NEW))):
            pending = [k for k in (0, 1) if recs[k] in (one, two)] if marks else []
            cases.boot(settings, recs, (10, None, None, 7), writes=pending)
    cases.list(listed(["magic", "v33", "flag"]))
    cases.boot(ANTI, (one, two), (10, None, None, 7), writes=(0, 1))
    cases.list(listed(["a", "b"]))
    cases.boot(ROLLBACK, (record(2, PENDING), record(3, PENDING)), (10, None, None, 7), writes=(0, 1))
    for sequence in (0, LAST):  # not good, so not marked
        cases.boot(ROLLBACK, (record(sequence, PENDING), BLANK), (0, 0, None, 7), writes=())
    cases.boot(ROLLBACK, (BLANK, record(9, PENDING)[:30] + bytes(2)), (0, 0, None, 7), writes=())


def add_new(cases):
    """Step 3: the new record that was chosen becomes pending, with rollback on; no other does."""
    cases.list(listed(["a", "b", "c"], "d"))
    for label in (LABEL, FF * 20):
        new, old = record(6, NEW, label), record(5, NEW, label)
        for other in (record(4, VALID), BLANK, record(4, INVALID), DAMAGED["state 5"], old):
            cases.boot(ROLLBACK, (new, other), (0, 2, 0), writes=(0,))
            cases.boot(ROLLBACK, (other, new), (0, 2, 1), writes=(1,))
            cases.boot(PLAIN, (other, new), (0, 2, 1), writes=())
        higher = record(7, VALID)
        cases.boot(ROLLBACK, (new, higher), (0, 0, 1), writes=())  # not chosen, so it stays new
        cases.boot(ROLLBACK, (higher, new), (0, 0, 0), writes=())
    cases.list(listed(["a", "b", "magic"], "d"))
    cases.boot(ROLLBACK, (record(6, NEW, LABEL), record(5, NEW)), (0, 1, 1), writes=(1,))  # through the other one
    cases.boot(ROLLBACK, (record(5, NEW), record(6, VALID)), (0, 1, 0), writes=(0,))
    cases.boot(ROLLBACK, (record(5, VALID), record(6, NEW)), (0, 1, 0), writes=())
    cases.boot(ROLLBACK, (record(3, NEW), record(6, NEW)), (0, FACTORY, None), writes=())
    cases.list(listed(["a", "b", "magic"]))
    cases.boot(ROLLBACK, (record(3, NEW), record(6, NEW)), (0, 0, None), writes=())
    cases.boot(PLAIN, (record(5, NEW), record(6, PENDING)), (0, 1, 0), writes=())


# by version, on a chip with sixteen bits of it and on one with 32
REGISTERS = {
    CHIP: {0: 0xFFFF0000, 1: 0x00018000, 2: 0x00000101, 3: 0x0B, 4: 0xF000F000, 5: 0x1F, 15: LAST - 4, 16: LAST},
    0: {0: 0, 1: 0x80000000, 2: 0x00010001, 3: 0x0B, 4: 0xF0000000, 5: 0x1F, 31: LAST - 4, 32: LAST},
}
BY_VERSION = {chip: ["v0", "v1", "v2", "a", "v4", "v5", f"v{width(chip)}"] for chip in REGISTERS}


def add_by_chip(cases):
    """The cases of both widths, the images being for that chip while they are made."""
    for chip in REGISTERS:
        add_chip_ids(cases, chip)
        add_anti_rollback(cases, chip, ANTI._replace(chip=chip), ROLLBACK._replace(chip=chip))
        add_register(cases, chip, ANTI._replace(chip=chip), ROLLBACK._replace(chip=chip))
        add_revision_ways(cases, ANTI._replace(chip=chip), ROLLBACK._replace(chip=chip))
        add_digest_ways(cases, ANTI._replace(chip=chip), ROLLBACK._replace(chip=chip))
    add_chip_ids(cases, CHIP)


def add_chip_ids(cases, chip):
    for name, made in IMAGES.items():
        if made[12:14] == CHIP.to_bytes(2, "little"):
            cases.lay(name, chip=chip)


def add_anti_rollback(cases, chip, anti, rollback):
    """An app below the eFuse version does not pass: the active record's, the other one's and those of the search."""
    settings = anti._replace(efuse=REGISTERS[chip][3])
    below_equal_above = (("v0", "a", "v4"), ("v1", "b", "v5"), ("v2", "c", BY_VERSION[chip][-1]))
    for levels in itertools.product(range(3), repeat=3):
        cases.list(listed([names[level] for names, level in zip(below_equal_above, levels)]))
        for sector in (0, 1):
            ways = [(levels[1], 1, sector), (levels[0], 0, 1 - sector), (levels[2], 2, None)]
            want = next(((0, app, through, 0x0B) for level, app, through in ways if level > 0), (10, None, None, 0x0B))
            recs = record(5, VALID), record(4, UNDEFINED)
            cases.boot(settings, recs if sector == 0 else recs[::-1], want, writes=())
    cases.list(listed(BY_VERSION[chip]))
    for first, register in zip((0, 1, 2, 3, 4, 5, 6, 6), REGISTERS[chip].values()):
        for slot in range(7):
            want = (0, slot, 1) if slot >= first else (0, first, None)
            cases.boot(anti._replace(efuse=register), (BLANK, record(slot + 1, VALID)), want + (register,), writes=())
            cases.boot(rollback._replace(efuse=register), (BLANK, record(slot + 8, VALID)), (0, slot, 1, register), writes=())
    cases.list(listed(["v2", "v1", "v0", "magic"]))
    for register in (0x07, 0x0B, LAST):
        for recs in ((record(2, VALID), record(1, NEW)), (BLANK, BLANK)):
            cases.boot(anti._replace(efuse=register), recs, (10, None, None, register), writes=())
        cases.boot(rollback._replace(efuse=register), (record(2, VALID), BLANK), (0, 1, 0, register), writes=())


def add_register(cases, chip, anti, rollback):
    """Step 4: a search raises the register to the version of the app it found, with anti-rollback on and no good record."""
    nothing = [(first, second) for first in (BLANK, *DAMAGED.values()) for second in (BLANK, *DAMAGED.values())]
    for name, version in zip(BY_VERSION[chip], (0, 1, 2, 3, 4, 5, width(chip))):
        cases.list(listed(["v33", name]))
        for v, register in REGISTERS[chip].items():
            want = (0, 1, None, raised(register, version, chip)) if version >= v else (10, None, None, register)
            cases.boot(anti._replace(efuse=register), (BLANK, BLANK), want, writes=())
        cases.boot(rollback._replace(efuse=5), (BLANK, BLANK), (0, 1, None, 5), writes=())
    cases.list(listed(["v4", "v5", "v2"]))
    for recs in nothing:
        cases.boot(anti._replace(efuse=0x0B), recs, (0, 0, None, 0x0F), writes=())
    for recs in nothing[:10]:
        cases.boot(rollback._replace(efuse=0x0B), recs, (0, 0, None, 0x0B), writes=())
        cases.boot(rollback._replace(rollback=False, efuse=0x0B), recs, (0, 0, None, 0x0B), writes=())
    for state in (INVALID, ABORTED, PENDING):  # a search with a good record, in either sector, raises nothing
        marks = [0] if state == PENDING else []
        for empty in (BLANK, DAMAGED["check word"]):
            cases.boot(anti._replace(efuse=0x0B), (record(1, state), empty), (0, 1, None, 0x0B), writes=marks)
            cases.boot(anti._replace(efuse=0x0B), (empty, record(2, state)), (0, 0, None, 0x0B), writes=[1 for _ in marks])
    for state in (VALID, UNDEFINED, NEW):  # nor where the record's own app is below the version, or passes
        cases.boot(anti._replace(efuse=0x0B), (record(3, state), BLANK), (0, 0, None, 0x0B), writes=())
        cases.boot(anti._replace(efuse=0x0B), (BLANK, record(2, state)), (0, 1, 1, 0x0B), writes=[1] if state == NEW else [])
    cases.list(listed(["magic", "v1"], "v5"))  # with anti-rollback off factory leaves it too
    cases.boot(rollback._replace(efuse=0), (BLANK, BLANK), (0, FACTORY, None, 0), writes=())


def add_widths(cases):
    """Versions around 16, 17 and 32, and registers that hold about as many ones, in the lower half, in the upper and in both."""
    for chip in (0, 5, 16):
        for secure in AROUND:
            cases.list(listed(["magic", f"v{secure} of {chip}"]))
            for low, above in itertools.product((0, 0x0100, 0x7FFF, 0xFFFF), (0, 1, 0x8000, 0x7FFF, 0xFFFF)):
                register = above << 16 | low
                ones = bin(low).count("1") + (bin(above).count("1") if chip == 0 else 0)
                starts = ones <= secure <= width(chip)
                settings = ANTI._replace(efuse=register, chip=chip)
                through = (0, 1, 0, register) if starts else (10, None, None, register)
                cases.boot(settings, (record(2, VALID), BLANK), through, writes=())
                found = (0, 1, None, raised(register, secure, chip)) if starts else through
                assert chip == 0 or found[3] >> 16 == above
                cases.boot(settings, (BLANK, BLANK), found, writes=())
                cases.boot(settings, (record(1, INVALID), BLANK), found[:3] + (register,), writes=())
    cases.list(listed(["v17 of 16", "v16 of 16", "v16 of 5"]))  # step 4 on chip 16
    for register, raises in ((0, 0xFFFF), (0xFFFF0000, LAST), (0x00010003, 0x0001FFFF), (0xFFFF, 0xFFFF), (0x8000FFFF, 0x8000FFFF)):
        cases.boot(ANTI._replace(efuse=register, chip=16), (BLANK, BLANK), (0, 1, None, raises), writes=())


def add_damaged(cases):
    """A record that is not good names nothing, has no state, and is left alone."""
    cases.list(listed(["a", "b"], "c"))
    for damaged in DAMAGED.values():
        for settings in (PLAIN, ROLLBACK):
            cases.boot(settings, (damaged, record(2, VALID)), (0, 1, 1, 7), writes=())
            cases.boot(settings, (record(2, VALID), damaged), (0, 1, 0, 7), writes=())
            cases.boot(settings, (damaged, BLANK), (0, FACTORY, None, 7), writes=())
            cases.boot(settings, (damaged, damaged), (0, FACTORY, None, 7), writes=())
    whole = record(0x01020304, NEW, LABEL)
    for i in range(32):  # each byte damaged: the label alone does not matter
        rec = whole[:i] + bytes([whole[i] ^ 0x41]) + whole[i + 1:]
        want = (0, 1, 0) if 4 <= i < 24 else (0, 0, 1)
        cases.boot(ROLLBACK, (rec, record(1, VALID)), want, writes=[0] if 4 <= i < 24 else [])


def add_bytes(cases):
    """A state change keeps the label and erases what stands after the record; a sector without one keeps every byte."""
    cases.list(listed(["a", "b"], "c"))
    for seeds in ((1, 2), (77, 200)):
        for label in (LABEL, bytes(20), FF * 20, bytes(range(236, 256))):
            new, pending, valid = record(8, NEW, label), record(7, PENDING, label), record(5, VALID, label)
            for recs, marked in (((new, valid), (0,)), ((valid, new), (1,)), ((pending, valid), (0,)), ((valid, pending), (1,)),
                                 ((pending, new), (0, 1)), ((new, pending), (0, 1)), ((valid, record(6, INVALID, label)), ()),
                                 ((BLANK, DAMAGED["zeros"]), ()), ((pending, BLANK), (0,)), ((BLANK, pending), (1,))):
                cases.boot(ROLLBACK, recs, seeds=seeds, writes=marked)
                cases.boot(PLAIN, recs, seeds=seeds, writes=())


def add_refusals(cases):
    """Refusals 1 to 3, alone and together: the lowest is given, the register comes back, and no pending record is marked."""
    right = listed(["a", "b"])
    with_factory = listed(["a", "b"], "c")
    wrong = {
        "empty": [], "a word": right[:1], "broken triple": right[:5], "one slot": right[:3], "word more": right + [18],
        "slot twice": right + [16, UNIT * UNITS["c"], SECTOR], "slot missing": right[:3] + [18] + right[4:],
        "subtype": right + [1, UNIT * UNITS["c"], SECTOR], "factory twice": with_factory + [0, UNIT * UNITS["d"], SECTOR],
        "offset": right[:1] + [SECTOR] + right[2:], "size 0": right[:2] + [0] + right[3:], "size": right[:2] + [6144] + right[3:],
        "overlap": right[:2] + [UNIT + SECTOR] + right[3:], "end": right[:4] + [SIZE - UNIT, UNIT + SECTOR],
        "seventeen slots": listed(GOOD), "and factory": listed(GOOD, "v4"), "52 words": listed(GOOD[:16], GOOD[16]) + [0],
    }
    recs = record(5, PENDING, LABEL), record(4, NEW, LABEL)
    for words in wrong.values():
        cases.list(words)
        cases.boot(ROLLBACK, recs, (1, None, None, 7), seeds=(3, 5), writes=())
    lists = ((right, SIZE, False), (with_factory, SIZE, False), (right, UNIT + SECTOR - 1, True), (wrong["overlap"], SIZE, True),
             (with_factory, 2 * UNIT, True), (right, 0, True), (right, UNIT + SECTOR, False))
    for words, flash, broken in lists:
        cases.list(words, flash)
        for length in (8192, 8191, 8193, 0, 4096, 8200):
            for rollback, anti in itertools.product((True, False), repeat=2):
                number = 1 if broken else 2 if length != 8192 else 3 if anti and (not rollback or words == with_factory) else None
                if number is not None:
                    settings = Settings(rollback, anti, 0x1234, CHIP, None)
                    cases.boot(settings, recs, (number, None, None, 0x1234), length, (9, 0), writes=())
        cases.boot(ROLLBACK, recs, (1,) if broken else (0, 1, 1), seeds=(9, 0), writes=() if broken else (0, 1))
        cases.boot(ANTI, recs, (1,) if broken else (3,) if words == with_factory else (0, 1, 1), seeds=(9, 0))


def add_images(cases):
    """An image that is refused, for each reason, does not pass; its entry's part alone is checked, for the chip that is set."""
    valid = record(1, VALID), record(2, VALID)
    for name, (number, _) in BAD.items():
        assert check_image(IMAGES[name].ljust(SECTOR, b"\0"), CHIP, 300)[0] == number
        cases.list(listed(["a", name]))
        cases.boot(ROLLBACK, valid, (0, 0, 0, 7), writes=())
        cases.list(listed([name, "magic" if name != "magic" else "v33"], "empty"))
        cases.boot(ROLLBACK, valid, (10, None, None, 7), writes=())
    cases.list(listed(["other chip", "a"]))
    for chip in (CHIP, OTHER_CHIP, CHIP + 1, CHIP & 0xFF, 0, 0xFFFF):
        slot = {CHIP: 1, OTHER_CHIP: 0}.get(chip)
        cases.boot(ROLLBACK._replace(chip=chip), valid, (10,) if slot is None else (0, slot, slot), writes=())
        cases.boot(ROLLBACK._replace(chip=chip), (BLANK, BLANK), (10,) if slot is None else (0, slot, None), writes=())
    for name, sectors in (("whole", 1), ("flagged", 1), ("padding", 2), ("digest", 2)):
        for size in (1, 2, 16):
            passes = size >= sectors
            cases.list(listed(["a", name], sizes={name: size * SECTOR}))
            cases.boot(ROLLBACK, valid, (0, 1, 1) if passes else (0, 0, 0), writes=())
            cases.list(listed(["magic", "v33"], name, place=1, sizes={name: size * SECTOR}))
            cases.boot(ROLLBACK, valid, (0, FACTORY, None) if passes else (10,), writes=())


def add_limits(cases, limits):
    """The images have these minimums and maximums from now on, by name."""
    for name, pair in limits.items():
        cases.lay(name, limits=pair)


def add_revisions(cases):
    """An app that doesn't fit the board's revision does not pass, in each way and at the edges of its minimum and maximum."""
    wrong = {"e": (301, 0), "f": (0, 299), "g": (301, 65535), "h": (400, 200)}
    add_limits(cases, wrong | {"a": (300, 0), "b": (0, 300), "c": (300, 300), "d": (299, 301)})
    add_fallbacks(cases, tuple(wrong), 300)
    add_revision_edges(cases)
    add_limits(cases, MADE_LIMITS)


def add_revision_edges(cases):
    """The app of the active record, which falls back to that of the other one."""
    cases.list(listed(["i", "j"]))
    for minimum, maximum, first, last in ((0, 0, 0, 65535), (0, 65535, 0, 65535), (300, 0, 300, 65535), (300, 65535, 300, 65535),
                                          (0, 300, 0, 300), (300, 300, 300, 300), (199, 399, 199, 399), (CHIP, 0, CHIP, 65535),
                                          (65535, 0, 65535, 65535), (0, 1, 0, 1), (0x0102, 0x0201, 0x0102, 0x0201),
                                          (0x7FFF, 0x8000, 0x7FFF, 0x8000), (0, 0xFF00, 0, 0xFF00), (301, 300, 1, 0)):
        add_limits(cases, {"j": (minimum, maximum)})
        near = {0, 300, first - 1, first, first + 1, last - 1, last, last + 1, 65535}
        for revision in sorted(near & set(range(65536))):
            want = (0, 1, 0) if first <= revision <= last else (0, 0, 1)
            cases.boot(ROLLBACK._replace(revision=revision), (record(2, VALID), record(1, VALID)), want, writes=())


def add_revision_ways(cases, anti, rollback):
    """The lower the revision, the more apps fail."""
    add_limits(cases, {"j": (303, 0), "k": (302, 0), "l": (301, 65535), "m": (300, 65535)})
    for failing, revisions in enumerate(((304, 303), (302,), (301,), (300,), (299,))):
        for revision in revisions:
            add_ways(cases, "jklm", failing, anti._replace(revision=revision), rollback._replace(revision=revision))
    add_limits(cases, MADE_LIMITS)


def add_ways(cases, apps, failing, anti, rollback):
    """Of four apps, that of the active record, of the other one, of factory and of a slot that none names, so many fail, in this order:
    the next one is started. A new record that is passed over stays new, and the last search raises the register, past slots that fail."""
    active, other, factory, unnamed = apps
    recs = record(3, NEW, LABEL), record(2, VALID)
    through = [(0, 2, 0), (0, 1, 1)]
    last = [(0, 0, None), (10, None, None)]
    marks = [0] if failing == 0 else []
    want = (through + [(0, FACTORY, None)] + last)[failing]
    cases.list(listed([unnamed, other, active], factory))
    cases.boot(rollback, recs, want, writes=marks)
    cases.boot(rollback._replace(rollback=False), recs, want, writes=())
    want = (through + last[:1] + last)[failing]
    cases.list(listed([unnamed, other, active]))
    for settings in (rollback, anti):
        cases.boot(settings, recs, want + (settings.efuse,), writes=marks)
    cases.list(listed([active, other, unnamed]))
    slot = (0, 1, 2, 2, None)[failing]
    found = (0, slot, None, 7) if slot is not None else (10, None, None, 0)
    cases.boot(anti._replace(efuse=0), (BLANK, BLANK), found, writes=())
    found = (0, 1, None) if failing < 2 else (10, None, None)  # slots 0 and 2 are barred
    cases.boot(rollback, (record(4, PENDING), record(3, INVALID)), found, writes=(0,))


# bytes that make a digest wrong: the digest's first and last one, two of the data that cancel in the xor, one of the header
SPOILT = [-32], [-1], [100, 200], [8]


def add_spoilt(cases, spoilt):
    """The images, which have a digest, have these bytes spoilt from now on, by name."""
    for name, places in spoilt.items():
        assert cases.traits[name]["flag"] == 1
        cases.lay(name, spoilt=places)


def add_digests(cases):
    """An app with a wrong digest does not pass, in each way and whichever byte is wrong; without a digest only the checksum counts."""
    add_spoilt(cases, dict(zip("fhln", SPOILT)))
    add_fallbacks(cases, tuple("fhln"))
    add_spoilt(cases, dict.fromkeys("fhln", ()))
    cases.list(listed(["i", "j"]))
    for places in (*SPOILT, *[[k] for k in range(-32, 0)], [14], [24], [-40]):
        add_spoilt(cases, {"j": places})
        cases.boot(ROLLBACK, (record(2, VALID), record(1, VALID)), (0, 0, 1), writes=())
    add_spoilt(cases, {"j": ()})
    for places in ([100, 200], [8], [14], [24], [-8], ()):
        cases.lay("i", spoilt=places)
        cases.boot(ROLLBACK, (record(2, VALID), record(3, VALID)), (0, 0, 1), writes=())


def add_digest_ways(cases, anti, rollback):
    """One app after the other fails for its digest."""
    add_ways(cases, "jlnp", 0, anti, rollback)
    for failing, name in enumerate("jlnp"):
        add_spoilt(cases, {name: SPOILT[failing]})
        add_ways(cases, "jlnp", failing + 1, anti, rollback)
    add_spoilt(cases, dict.fromkeys("jlnp", ()))


def add_lives(cases):
    """Boot after boot on the same otadata: an update that is never marked valid, one that is, and one that is marked invalid."""
    cases.list(listed(["a", "b"], "c", place=1))
    for p in (0, 1):
        order = 1 if p else -1
        old, new = record(1, UNDEFINED), record(2, NEW, LABEL)
        cases.boot(ROLLBACK, (old, new)[::order], (0, 1, p), writes=(p,), seeds=(6, 7))
        cases.boot(ROLLBACK, want=(0, 0, 1 - p), writes=(p,))
        cases.boot(ROLLBACK, want=(0, 0, 1 - p), writes=())
        cases.boot(ROLLBACK, (old, new)[::order], (0, 1, p), writes=(p,))
        cases.stores(p, record(2, VALID, LABEL), 4128)
        cases.boot(ROLLBACK, want=(0, 1, p), writes=())
        cases.stores(1 - p, record(3, NEW), 4128)
        cases.boot(ROLLBACK, want=(0, 0, 1 - p), writes=(1 - p,))
        cases.boot(PLAIN, want=(0, 0, 1 - p), writes=())  # rollback off: the pending record stays
        cases.boot(ROLLBACK, want=(0, 1, p), writes=(1 - p,))
        cases.stores(p, record(2, INVALID, LABEL), 4128)
        cases.boot(ROLLBACK, want=(0, FACTORY, None), writes=())
        cases.list(listed(["a", "b"]))
        cases.boot(ROLLBACK, want=(10,), writes=())
        cases.stores(p, record(4, NEW), 4127)  # all but its last store
        cases.boot(ROLLBACK, want=(0, 1, None), writes=())
        cases.boot(ANTI._replace(efuse=0), want=(0, 1, None, 0), writes=())
        cases.stores(1 - p, record(5, NEW), 1)  # now neither is good
        cases.boot(ANTI._replace(efuse=0), want=(0, 0, None, 7), writes=())
        cases.list(listed(["a", "b"], "c", place=1))


def add_random(cases, rand):
    """States, sequences, apps, settings, numbers of slots and factory at random."""
    for _ in range(100):
        n = rand.choice((2, 2, 3, 3, *range(2, 17)))
        share = rand.choice((0.2, 0.5, 0.8))
        good = rand.sample(GOOD + BY_VERSION[CHIP][:3] + BY_VERSION[CHIP][4:] + ["flagged", "whole"], n + 1)
        bad = rand.sample(FAILING, n + 1)
        names = [good[k] if rand.random() < share else bad[k] for k in range(n + 1)]
        factory = names[n] if rand.random() < 0.4 else None
        cases.list(listed(names[:n], factory, rand.randrange(n + 1), rand.sample(range(n), n)))
        for _ in range(5):
            base = rand.choice((1, n, 40, LAST - 1 - 2 * n))
            recs = [record(base + rand.randrange(2 * n), rand.choice(STATES), rand.choice((LABEL, FF * 20, rand.randbytes(20))))
                    for _ in (0, 1)]
            recs = [rand.choice((BLANK, *DAMAGED.values())) if rand.random() < 0.15 else rec for rec in recs]
            rollback = rand.random() < 0.7
            anti = rollback and factory is None and rand.random() < 0.6 or rand.random() < 0.04
            chip = OTHER_CHIP if rand.random() < 0.04 else CHIP
            efuse = rand.choice((*REGISTERS[CHIP].values(), 0x03, 0x11, 0x0B, 0x07, rand.getrandbits(32)))
            length = rand.choice((0, 4096, 8191, 8193)) if rand.random() < 0.02 else 8192
            seeds = rand.choice((0, 0, 5)), rand.choice((0, 9))
            cases.boot(Settings(rollback, anti, efuse, chip, None), recs, length=length, seeds=seeds)


# ---- power cuts

def add_rewrites(cases):
    """The rewrites of a node's life, in either sector: set-boot, the marks of boot, mark-valid and mark-invalid."""
    cases.list(listed(["a", "b", "c"]))
    for p in (0, 1):
        order = 1 if p else -1  # the untouched record stands in the other sector
        kept = record(4, VALID, LABEL)
        sees = lambda *sectors: [p if mine else 1 - p for mine in sectors]
        for settings, old, rec, seen in (
                (ROLLBACK, BLANK, record(5, NEW), sees(0, 1)),  # set-boot, over nothing and over an older record
                (ROLLBACK, record(3, VALID, LABEL), record(5, NEW), sees(0, 1)),
                (PLAIN, record(2, UNDEFINED), record(6, UNDEFINED), sees(0, 1)),
                (ROLLBACK, record(5, NEW), record(5, PENDING), sees(1, 0)),  # boot's pending and aborted marks
                (ROLLBACK, record(5, PENDING), record(5, ABORTED), sees(0)),
                (ROLLBACK, record(5, PENDING), record(5, VALID), sees(0, 1)),  # mark-valid and mark-invalid
                (ANTI, record(5, UNDEFINED), record(5, VALID), sees(1, 0, 1)),
                (ROLLBACK, record(5, VALID), record(5, INVALID), sees(1, 0)),
                (ROLLBACK, record(5, VALID), record(3, NEW), sees(1, 0)),  # a lower sequence, and the same one
                (ROLLBACK, record(3, VALID), record(4, VALID), sees(0, 1) if p == 0 else sees(0)),
                (PLAIN, record(4, NEW), record(4, PENDING), sees(1, 0, 1) if p == 0 else sees(0))):
            cases.cuts(settings, p, (kept, old)[::order], rec, seeds=(3, 4), seen=seen)


def add_cut_states(cases):
    """Old and new records of every state, higher and lower than the untouched one, which has every state that it may."""
    cases.list(listed(["a", "b", "c", "d"], "e", place=2))
    for p, settings, higher in itertools.product((0, 1), (ROLLBACK, PLAIN), (0, 1)):
        order = 1 if p else -1
        states = [VALID, NEW, UNDEFINED] + ([] if settings.rollback else [PENDING])
        for turn, state in enumerate(STATES):
            kept = record(8, states[turn % len(states)], LABEL)
            old = record((5, 11)[turn % 2], STATES[(turn + 2 + p + higher) % 6], LABEL)
            cases.cuts(settings, p, (kept, old)[::order], record((6, 10)[higher], state, bytes(20)))


def add_cut_apps(cases):
    """The app of the rewritten sector fails or is below the eFuse version, and so the untouched one's starts."""
    cases.list(listed(["magic", "a", "v2", "v4"]))
    fails, kept, low, passes = (record(sequence, NEW) for sequence in (9, 6, 7, 8))
    for p in (0, 1):
        order = 1 if p else -1
        cases.cuts(ROLLBACK, p, (kept, passes)[::order], fails, seen=[p, 1 - p])
        cases.cuts(ROLLBACK, p, (kept, fails)[::order], passes, seen=[1 - p, p])
        cases.cuts(ANTI, p, (kept, low)[::order], passes, seen=[1 - p, p])
        cases.cuts(ANTI, p, (kept, passes)[::order], low, seen=[p, 1 - p])


def add_cut_passing(cases, settings, olds, apps):
    """In either sector rewrites over these records, with each record whose app passes or not; the untouched one's passes."""
    kept = record(4, VALID)
    for p, old, (rec, passing) in itertools.product((0, 1), olds, apps.items()):
        order = 1 if p else -1
        first = [p] if old in apps and apps[old] else []
        cases.cuts(settings, p, (kept, old)[::order], rec, seen=first + ([1 - p, p] if passing else [1 - p]))


def add_cut_revisions(cases):
    """The app of the rewritten sector fits the board's revision or not."""
    cases.list(listed(["a", "b", "c"]))
    add_limits(cases, {"a": (299, 301), "b": (301, 0), "c": (0, 299)})
    for revision in (299, 300, 301):
        apps = {record(5, NEW): revision == 301, record(6, NEW): revision == 299}
        add_cut_passing(cases, ROLLBACK._replace(revision=revision), [record(3, VALID)], apps)
    add_limits(cases, MADE_LIMITS)


def add_cut_digests(cases):
    """Its digest is right or wrong, and so is that of the app of the record before."""
    cases.list(listed(["b", "d", "f"]))
    add_spoilt(cases, {"f": [-1]})
    for settings in ALL_SETTINGS:
        apps = {record(5, NEW): True, record(6, NEW): False}
        add_cut_passing(cases, settings, [record(3, VALID), *apps], apps)
    add_spoilt(cases, {"f": ()})


def add_cut_sequences(cases):
    """Sequences with bytes of 0xFF: what is erased or not yet programmed of them makes no difference."""
    kept = record(6, VALID)
    for n, p in itertools.product((8, 9, 16), (0, 1)):
        cases.list(listed(GOOD[:n]))
        order = 1 if p else -1
        for old, new in ((0x0000FFFF, 0x01FFFFFF), (0x00FFFFFF, 0x000001FF), (0x0100FFFF, 0x0100FFFF), (0xFEFFFFFF, 0x00FF00FF),
                         (LAST - 1, 0x00FFFFFE)):
            cases.cuts(ROLLBACK, p, (kept, record(old, VALID))[::order], record(new, UNDEFINED, LABEL), seeds=(0, 8))


def add_cut_lists(cases):
    """Rewrites that were cut before the last one, also within the erasing and the programming of the sequence."""
    cases.list(listed(["a", "b", "c"], "d"))
    one, two, three = record(0x0000FFFF, NEW, LABEL), record(0x00FFFFFF, VALID), record(8, UNDEFINED, LABEL)
    for p in (0, 1):
        order = 1 if p else -1
        kept = record(7, UNDEFINED)
        for old, earlier, rec in ((one, [(two, 1)], three), (one, [(two, 3)], record(9, NEW)), (BLANK, [(two, 4125)], three),
                                  (three, [(one, 4127)], two), (record(5, VALID), [(three, 4096), (one, 2)], two),
                                  (BLANK, [(one, 4126), (three, 2000), (two, 4128)], record(9, PENDING)),
                                  (two, [(three, 4128), (one, 4124), (two, 0)], record(6, NEW)),
                                  (three, [(two, 2), (three, 4110), (record(9, NEW), 4128)], record(9, PENDING))):
            cases.cuts(ROLLBACK, p, (kept, old)[::order], rec, earlier, seeds=(2, 3))


def add_all(cases):
    """Gives the number of boots and of rewrites of which all cuts are made."""
    boots = Boots(cases)
    for add in (add_flash, add_examples, add_active, add_grid, add_fallbacks, add_same_slot, add_search, add_marks, add_new,
                add_by_chip, add_widths, add_damaged, add_bytes, add_refusals, add_images, add_revisions, add_digests, add_lives):
        add(boots)
    add_random(boots, random.Random(20261117))
    assert set(boots.met) == {0, 1, 2, 3, 10} and boots.flash.met == {0, *range(21, 32)}
    for add in (add_rewrites, add_cut_states, add_cut_apps, add_cut_revisions, add_cut_digests, add_cut_sequences, add_cut_lists):
        add(boots)
    return boots.boots, boots.rewrites
