//! The power-cut run: rewrites through the library's single store, cut at every place, each cut followed by a boot.
//!
//! It holds demand 3: what the sector reads as, and which app the next boot starts.

use crate::calls::{hex, plain};
use ota_tests::boot::{boot, passes, App, Started};
use ota_tests::ffi::{self, Node};
use ota_tests::generate::{self, limit_revisions, plain_node_of, spoil_digest};
use ota_tests::image::{self, Facts};
use ota_tests::partition::{self, Partitions};
use ota_tests::record::{make, Reading, Record, State, HIGHEST_SEQUENCE};
use ota_tests::rng::Rng;
use ota_tests::sector::{self, active, read, readings, OTADATA_SIZE, SECTOR_SIZE, STORES};
use ota_tests::settings::{Board, Settings};

/// The versions of the apps of four slots. Of more slots, the next four have the same, and so on.
const VERSIONS: [u32; 4] = [3, 5, 1, 5];

/// Their minimum and maximum revision.
const LIMITS: [(u16, u16); 4] = [(0, 0), (300, 301), (301, 65_535), (0, 301)];

/// What the last of four slots holds.
#[derive(Clone, Copy, PartialEq, Eq, Debug)]
enum LastSlot {
    Erased,
    /// An app that would pass if its digest were right.
    WrongDigest,
}

const BOARD: Board = Board { chip_id: 0, revision: 301 };
const OFF: ffi::Settings = ffi::Settings { board: BOARD, efuse: 0b10_0110, rollback: 0, anti_rollback: 0 };
const ROLLBACK: ffi::Settings = ffi::Settings { rollback: 1, ..OFF };
const ANTI_ROLLBACK: ffi::Settings = ffi::Settings { anti_rollback: 1, ..ROLLBACK };
/// On a chip with sixteen version bits, and ones above them.
const SIXTEEN_BITS: ffi::Settings =
    ffi::Settings { board: Board { chip_id: 16, ..BOARD }, efuse: 0xFFFF_0000 | OFF.efuse, ..ANTI_ROLLBACK };
/// On a board that the third slot's app doesn't fit.
const OLDER: ffi::Settings = ffi::Settings { board: Board { revision: 300, ..BOARD }, ..ROLLBACK };
const SETTINGS: [ffi::Settings; 5] = [OFF, ROLLBACK, ANTI_ROLLBACK, SIXTEEN_BITS, OLDER];

/// Random lists of rewrites, beside the rewrites that are cut at every place.
const LISTS: usize = 1_000;

/// How many cuts were made, and what they left.
#[derive(Default)]
pub struct Cuts {
    pub rewrites: u64,
    pub lists: u64,
    pub cuts: u64,
    pub reads_old: u64,
    pub reads_new: u64,
    pub reads_blank: u64,
    pub reads_bad_sequence: u64,
    pub reads_bad_check: u64,
    pub starts_rewritten: u64,
    pub starts_untouched: u64,
    pub wrong_revision: u64,
    pub wrong_digest: u64,
}

pub fn run(seed: u64) -> Cuts {
    let mut cuts = Cuts::default();
    every_cut(&mut cuts);
    lists_of_rewrites(&mut cuts, seed);
    for (what, count) in [
        ("the old record", cuts.reads_old),
        ("the new record", cuts.reads_new),
        ("a blank record", cuts.reads_blank),
        ("a bad sequence", cuts.reads_bad_sequence),
        ("a bad check word", cuts.reads_bad_check),
        ("the rewritten record's app", cuts.starts_rewritten),
        ("the untouched record's app", cuts.starts_untouched),
        ("the active record's app refused for the revision alone", cuts.wrong_revision),
        ("the active record's app refused for the digest alone", cuts.wrong_digest),
    ] {
        assert!(count > 0, "no cut left {what}");
    }
    cuts
}

/// Several rewrites, each cut at all 4,129 places.
fn every_cut(cuts: &mut Cuts) {
    let blank = vec![0xFF; SECTOR_SIZE];
    // With four slots sequence 1 names slot 0, 2 slot 1, 3 slot 2, 4 slot 3 (erased, or with a wrong digest), and so on.
    let starts = [
        blank.clone(),
        sector_with(record(5, 0xFF, State::Valid), 0xFF),
        sector_with(record(6, 0x00, State::New), 0x5A),
        // Erasing the first byte, or the first two, leaves these records as they are.
        sector_with(record(0x05FF, 0x61, State::Undefined), 0xFF),
        sector_with(record(0x0007_FFFF, 0xFF, State::Aborted), 0x00),
        // Left by a rewrite that was cut.
        cut_at(sector_with(record(5, 0xFF, State::Valid), 0xFF), record(7, 0xFF, State::New), 3),
        cut_at(blank, record(10, 0x33, State::Valid), STORES - 3),
    ];
    let news = [
        record(10, 0xFF, State::New),
        record(9, 0xFF, State::Undefined),
        record(8, 0x20, State::Valid),
        record(14, 0xFF, State::Pending),
        // Good before its last store.
        record(0x01FF, 0xFF, State::New),
        record(HIGHEST_SEQUENCE, 0xFF, State::Invalid),
        record(1, 0x00, State::Valid),
    ];
    let others = [record(9, 0xFF, State::Valid), record(6, 0x41, State::New)];
    for (turn, start) in starts.iter().enumerate() {
        for (step, new) in news.iter().enumerate() {
            // Each start meets each new record; sector, settings, factory, the other record and the last slot take turns.
            let settings = SETTINGS[(turn + step / 2) % SETTINGS.len()];
            let factory = (step % 3 == 0 && settings.anti_rollback == 0).then_some(9);
            let other = others[(turn / 2 + step) % 2];
            let last_slot = if turn % 2 == 0 { LastSlot::WrongDigest } else { LastSlot::Erased };
            let mut setup = Setup::new(4, start, (turn + step) % 2, &other, settings, factory, last_slot);
            setup.rewrite(new, STORES, |setup, cut| setup.hold(cuts, start, new, cut));
            cuts.rewrites += 1;
        }
    }
}

/// Random lists of rewrites on one sector, each with its own record and cut, on the bytes that the one before left, with 2 to 16 slots.
fn lists_of_rewrites(cuts: &mut Cuts, seed: u64) {
    let mut rng = Rng::new(seed);
    for _ in 0..LISTS {
        let settings = rng.pick(&SETTINGS);
        let start = match rng.chance(30) {
            true => vec![0xFF; SECTOR_SIZE],
            false => sector_with(good_record(&mut rng), rng.pick(&[0xFF, 0x00, 0x5A])),
        };
        // The other record names slot 1, or a later one of the same version.
        let n = 2 + rng.below(15) as u32;
        let slot = rng.pick(&[1, 5, 9, 13].map(|slot| if slot < n { slot } else { 1 }));
        let highest = HIGHEST_SEQUENCE - (HIGHEST_SEQUENCE - 1 - slot) % n;
        let sequence = rng.pick(&[slot + 1, slot + 1 + n, slot + 1 + 2 * n, highest]);
        let other = record(sequence, 0xFF, rng.pick(&[State::Valid, State::New]));
        let last_slot = rng.pick(&[LastSlot::Erased, LastSlot::WrongDigest]);
        let mut setup = Setup::new(n as usize, &start, rng.below(2), &other, settings, None, last_slot);
        for _ in 0..1 + rng.below(5) {
            let new = good_record(&mut rng);
            let last = match rng.below(4) {
                0 => rng.below(8),
                1 => STORES - rng.below(40),
                2 => STORES,
                _ => rng.below(STORES + 1),
            };
            let before = setup.sector().to_vec();
            setup.rewrite(&new, last, |_, _| ());
            setup.hold(cuts, &before, &new, last);
        }
        cuts.lists += 1;
    }
}

fn record(sequence: u32, label: u8, state: State) -> [u8; 32] {
    make(sequence, &[label; 20], state.word()).unwrap()
}

/// A good record, its sequence often with low bytes FF.
fn good_record(rng: &mut Rng) -> [u8; 32] {
    let low = rng.pick(&[0, 0, 0xFF, 0xFFFF, 0xFF_FFFF]);
    let sequence = (generate::sequence(rng) | low).clamp(1, HIGHEST_SEQUENCE);
    make(sequence, &generate::label(rng), rng.pick(&State::ALL).word()).unwrap()
}

/// A sector that holds a record, with any bytes after it.
fn sector_with(record: [u8; 32], rest: u8) -> Vec<u8> {
    let mut sector = vec![rest; SECTOR_SIZE];
    sector[..32].copy_from_slice(&record);
    sector
}

/// The sector as a rewrite leaves it that the power cuts.
fn cut_at(mut sector: Vec<u8>, record: [u8; 32], cut: usize) -> Vec<u8> {
    (0..cut).for_each(|m| assert_eq!(ffi::store(&mut sector, &record, m), 0));
    sector
}

/// A node whose sector `number` is rewritten while the other holds a usable record whose app passes.
struct Setup {
    list: Vec<u32>,
    flash: Vec<u8>,
    partitions: Partitions,
    settings: ffi::Settings,
    number: usize,
    /// As the library has left it, and as the model has.
    otadata: Vec<u8>,
    model: Vec<u8>,
}

impl Setup {
    fn new(
        n: usize,
        start: &[u8],
        number: usize,
        other: &[u8; 32],
        settings: ffi::Settings,
        factory: Option<u32>,
        last_slot: LastSlot,
    ) -> Setup {
        let slots: Vec<Option<u32>> = VERSIONS.into_iter().cycle().map(Some).take(n).collect();
        let (list, mut flash) = plain_node_of(settings.board.chip_id, &slots, factory);
        let partitions = partition::check(&list, flash.len()).unwrap();
        for (part, (minimum, maximum)) in partitions.slots.iter().zip(LIMITS.into_iter().cycle()) {
            limit_revisions(&mut flash[part.clone()], minimum, maximum);
        }
        for part in partitions.slots.iter().skip(3).step_by(4) {
            match last_slot {
                LastSlot::Erased => flash[part.clone()].fill(0xFF),
                LastSlot::WrongDigest => spoil_digest(&mut flash[part.clone()]),
            }
        }
        let mut otadata = vec![0xFF; OTADATA_SIZE];
        otadata[number * SECTOR_SIZE..][..SECTOR_SIZE].copy_from_slice(start);
        otadata[(1 - number) * SECTOR_SIZE..][..SECTOR_SIZE].copy_from_slice(&sector_with(*other, 0xFF));
        let model = otadata.clone();
        let setup = Setup { list, flash, partitions, settings, number, otadata, model };
        let untouched = Record::read(other).good().unwrap();
        assert!(untouched.usable() && setup.passing(&untouched).is_some());
        assert!(!(settings.rollback != 0 && untouched.state == State::Pending));
        setup
    }

    fn sector(&self) -> &[u8] {
        &self.otadata[self.number * SECTOR_SIZE..][..SECTOR_SIZE]
    }

    fn model_settings(&self) -> Settings {
        plain(self.settings)
    }

    /// The facts of the image of a record's app, if the app passes.
    fn passing(&self, record: &Record) -> Option<Facts> {
        self.passing_on(self.settings.board, record)
    }

    /// The same on another board.
    fn passing_on(&self, board: Board, record: &Record) -> Option<Facts> {
        let app = App::Slot(record.slot(self.partitions.n()));
        passes(&self.partitions, &self.flash, &Settings { board, ..self.model_settings() }, app)
    }

    /// Whether the digest alone is why a record's app doesn't pass. No test of the image comes after that of the digest.
    fn wrong_digest(&self, record: &Record) -> bool {
        let part = self.partitions.slots[record.slot(self.partitions.n()) as usize].clone();
        image::check(&self.flash[part], self.settings.board).is_err_and(|refusal| refusal.number == 30)
    }

    /// Does the stores of a rewrite up to the cut `last`, one at a time on both sides, and calls `at` at each cut.
    fn rewrite(&mut self, new: &[u8; 32], last: usize, mut at: impl FnMut(&Setup, usize)) {
        let place = self.number * SECTOR_SIZE..(self.number + 1) * SECTOR_SIZE;
        at(self, 0);
        for m in 0..last {
            let sector = &mut self.otadata[place.clone()];
            assert_eq!(ffi::store(sector, new, m), 0);
            sector::store(&mut self.model[place.clone()], new, m).unwrap();
            // Calls that are refused may come among the others; they change nothing.
            if m % 512 == 7 {
                assert_eq!(ffi::store(sector, new, STORES), 12);
                assert_eq!(ffi::store(sector, &new[..31], m), 2);
                assert_eq!(ffi::store(&mut sector[1..], new, m), 2);
                assert_eq!(ffi::rewrite(&mut sector[..4095], new), 2);
            }
            at(self, m + 1);
        }
    }

    /// Holds the bytes, the reading and the next boot to what they must be, when the last rewrite began on the sector
    /// `before`, has the record `new` and was cut at `cut`.
    fn hold(&self, cuts: &mut Cuts, before: &[u8], new: &[u8; 32], cut: usize) {
        let Setup { list, flash, settings, number, otadata, .. } = self;
        let context = || format!("sector {number}, cut {cut}, new record {}, {settings:x?}", hex(new));
        assert!(*otadata == self.model, "the bytes differ: {}", context());
        cuts.cuts += 1;

        // The sector reads exactly as the old record, exactly as the new one, or as none; as the new one when finished.
        // The state is never the reason for none: where the sequence isn't whole, the check word isn't its own.
        let sector = self.sector();
        let mut out = [9; 3];
        let found = ffi::read_sector(sector, &mut out);
        let reading = read(sector);
        assert_eq!((found, out), reading.answer(), "{}", context());
        match reading {
            Reading::Good(_) if sector[..32] == *new => cuts.reads_new += 1,
            Reading::Good(_) => {
                let was_good = read(before).good().is_some();
                assert!(was_good && sector[..32] == before[..32], "neither old nor new: {}", context());
                cuts.reads_old += 1;
            }
            Reading::Blank => cuts.reads_blank += 1,
            Reading::BadSequence => cuts.reads_bad_sequence += 1,
            Reading::BadCheck => cuts.reads_bad_check += 1,
            Reading::BadState | Reading::WrongSize => panic!("{}: {}", reading.name(), context()),
        }
        if cut == STORES {
            assert_eq!(sector[..32], *new, "the rewrite is finished: {}", context());
        }

        // The next boot, on both sectors as they stand.
        let (mut after, mut model_after) = (otadata.clone(), otadata.clone());
        let mut out = [9; 6];
        let node = Node { list, flash, otadata: &mut after };
        assert_eq!(ffi::boot(node, *settings, &mut out), 0, "{}", context());
        let started = boot(list, flash, &mut model_after, &self.model_settings()).unwrap();
        assert!(after == model_after, "the bytes after boot differ: {}", context());

        // It starts the app of the rewritten sector's record exactly when, after boot's aborted marks, that is the
        // active record and its app passes; otherwise the untouched record's app.
        let marked = readings(otadata).map(|reading| {
            let pending = |record: &Record| settings.rollback != 0 && record.state == State::Pending;
            reading.map(|record| if pending(&record) { record.in_state(State::Aborted) } else { record })
        });
        let through = match marked[*number] {
            Some(record) if active(&marked) == Some(*number) && self.passing(&record).is_some() => *number,
            _ => 1 - number,
        };
        let record = marked[through].unwrap();
        let slot = record.slot(self.partitions.n());
        let facts = self.passing(&record).unwrap();
        let expected = [2, slot, through as u32, settings.efuse, facts.length as u32, facts.entry];
        assert_eq!(out, expected, "{}", context());
        let expected =
            Started { app: App::Slot(slot), sector: Some(through), efuse: settings.efuse, image: facts.loadable() };
        assert_eq!(started, expected, "{}", context());

        // Never through a record marked invalid or aborted, nor, with anti-rollback on, below the eFuse version.
        assert!(record.usable(), "{}", context());
        assert!(!self.model_settings().too_old(facts.version), "{}", context());
        if let Some(first) = active(&marked).and_then(|number| marked[number]) {
            let fits_301 = self.passing_on(Board { revision: 301, ..settings.board }, &first).is_some();
            cuts.wrong_revision += u64::from(fits_301 && self.passing(&first).is_none());
            cuts.wrong_digest += u64::from(self.wrong_digest(&first));
        }
        if through == *number {
            cuts.starts_rewritten += 1;
        } else {
            cuts.starts_untouched += 1;
        }
    }
}
