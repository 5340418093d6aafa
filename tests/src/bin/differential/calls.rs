//! Each call of the library beside the model's, on the same bytes.

use crate::digests;
use crate::overlooked::{self, exchange, Overlooked, Patches};
use crate::revisions::{self, Limits};
use crate::tally::Tally;
use ota_tests::boot::{self, App, Started};
use ota_tests::ffi;
use ota_tests::generate::{self, Drawn, NodeCase, Rule, FLASH_SHARED};
use ota_tests::image::{self, Loadable};
use ota_tests::partition;
use ota_tests::record::{self, State, RECORD_SIZE};
use ota_tests::refusal::{number_of, Refusal};
use ota_tests::rng::Rng;
use ota_tests::sector::{self, SECTOR_SIZE, STORES};
use ota_tests::settings::{self, Board, Settings};
use ota_tests::sha256;
use ota_tests::update::{self, Marked};
use std::fmt::{Debug, Write};

/// The ways of a boot to an app.
pub const WAYS: [&str; 4] = ["through the active record", "through the other record", "factory", "by the search"];

/// The ways to a reply that gives an image, besides those of a boot.
const WITH_IMAGE: [&str; 6] = [
    "set_boot: named already",
    "set_boot: sector 0 rewritten",
    "set_boot: sector 1 rewritten",
    "mark_valid: valid already",
    "mark_valid: sector 0 rewritten",
    "mark_valid: sector 1 rewritten",
];

/// What must come up besides the numbers.
pub fn to_be_met() -> Vec<String> {
    let mut things: Vec<String> = Rule::ALL.iter().map(|rule| format!("check_list: rule {rule:?} broken")).collect();
    things.extend(State::ALL.iter().map(|state| format!("state_query: {state:?}")));
    for reading in ["good", "blank", "bad sequence", "bad check", "bad state"] {
        let calls = ["boot", "set_boot", "mark_valid", "mark_invalid", "state_query", "next_slot"];
        things.extend(calls.map(|call| format!("{call}: a sector reads {reading}")));
        things.extend([format!("read_sector: {reading}"), format!("read_sector: wrong size, {reading}")]);
    }
    for kind in ["32 bits", "16 bits", "16 bits, ones above"] {
        let ways = [
            "efuse_version",
            "efuse_raise: raised",
            "boot: by the search, register raised",
            "mark_valid: register raised",
        ];
        things.extend(ways.map(|way| format!("{way}, {kind}")));
        things.extend(["set_boot", "mark_valid"].map(|call| format!("{call}: 6, {kind}")));
    }
    for digest in ["no digest", "digest"] {
        things.extend(WAYS.map(|way| format!("boot: {way}, {digest}")));
        things.extend(WITH_IMAGE.map(|way| format!("{way}, {digest}")));
    }
    things.extend(revisions::to_be_met());
    things.extend(digests::to_be_met());
    things.extend(overlooked::to_be_met());
    things.extend(Drawn::all().iter().map(|drawn| format!("read_sector: {}", drawn.name())));
    things.extend(
        [
            "check_words",
            "check_words: no sequence",
            "sha256: whole blocks",
            "sha256: the padding ends the last block",
            "sha256: the padding fills one block more",
            "check_list: with factory",
            "check_list: without factory",
            "read_sector: wrong size",
            "active: sector 0",
            "active: sector 1",
            "active: none",
            "active: a tie",
            "active: a sector of wrong size",
            "boot: a record marked aborted",
            "boot: both records marked aborted",
            "boot: a record marked pending",
            "boot: 10 after a record was marked aborted",
            "set_boot: no active record",
            "check_image: 0, version 17 to 32",
            "check_image: 29, version 17 to 32",
            "mark_invalid: sector 0 rewritten",
            "mark_invalid: sector 1 rewritten",
            "state_query: not through the active record",
            "state_query: a tie",
            "next_slot: from factory",
            "next_slot: from factory, not listed",
            "next_slot: from the last slot",
            "next_slot: done, and again with another revision",
        ]
        .map(String::from),
    );
    things
}

/// A run over many cases, with the flash that they share: erased, but for what a case writes and erases again.
pub struct Run {
    seed: u64,
    case: u64,
    rng: Rng,
    flash: Vec<u8>,
    /// What to patch in the flash of the case so that one thing is overlooked.
    patches: [(Overlooked, Patches); 2],
    pub tally: Tally,
}

impl Run {
    pub fn new(seed: u64) -> Run {
        let (flash, patches) = (vec![0xFF; FLASH_SHARED], Overlooked::ALL.map(|thing| (thing, Patches::new())));
        Run { seed, case: 0, rng: Rng::new(seed), flash, patches, tally: Tally::default() }
    }

    /// One case of everything; it depends on the seed and its number alone.
    pub fn case(&mut self, case: u64) {
        self.case = case;
        self.rng = Rng::of_case(self.seed, case);
        self.words();
        self.make_record();
        self.sectors();
        self.stores();
        self.check_list();
        self.check_image();
        self.node();
        self.check_words();
        self.read_drawn();
        self.check_drawn();
        self.sha256();
    }

    /// The library has written nothing to the flash.
    pub fn assert_flash_erased(&self) {
        assert!(self.flash.iter().all(|byte| *byte == 0xFF), "the flash was changed (seed {})", self.seed);
    }

    fn words(&mut self) {
        let rng = &mut self.rng;
        let sequence = generate::sequence(rng);
        let (chip_id, efuse) = (generate::chip_id(rng), generate::efuse(rng));
        let held = settings::efuse_version(chip_id, efuse);
        let ones = efuse.count_ones();
        let version = rng.pick(&[0, 1, 2, 5, 15, 16, 17, 31, 32, 33, 64, 0x8000_0000, !0, held, held + 1, ones]);
        self.same("check_word", &sequence, ffi::check_word(sequence), record::check_word(sequence));
        self.same("efuse_version", &(chip_id, efuse), ffi::efuse_version(chip_id, efuse), held);
        let raised = settings::efuse_raise(chip_id, efuse, version);
        self.same("efuse_raise", &(chip_id, efuse, version), ffi::efuse_raise(chip_id, efuse, version), raised);
        let kind = register_kind(chip_id, efuse);
        let way = if raised == efuse { "kept" } else { "raised" };
        self.tally.met("check_word");
        self.tally.met(format!("efuse_version, {kind}"));
        self.tally.met(format!("efuse_raise: {way}, {kind}"));
        self.tally.calls += 3;
    }

    /// A slice of sequences, of which every length from 0 to 16 comes up, and a longer one.
    fn check_words(&mut self) {
        let rng = &mut self.rng;
        let count = rng.pick(&[0, 1, 2, 3, 4, 5, 6, 7, 8, 9, 10, 11, 12, 13, 14, 15, 16, 300]);
        let sequences: Vec<u32> = (0..count).map(|_| generate::sequence(rng)).collect();
        let mut words = sequences.clone();
        let number = ffi::check_words(&mut words);
        let expected = sequences.iter().map(|sequence| record::check_word(*sequence)).collect();
        self.same("check_words", &sequences, (number, words), (0, expected));
        self.tally.met(if count == 0 { "check_words: no sequence" } else { "check_words" });
        self.tally.calls += 1;
    }

    fn make_record(&mut self) {
        let rng = &mut self.rng;
        let (sequence, label, state) = (generate::sequence(rng), generate::label(rng), generate::state_word(rng));
        let library = with_out(rng, |out| ffi::make_record(sequence, &label, state, out));
        let made = record::make(sequence, &label, state);
        let number = number_of(&made);
        self.same("make_record", &(sequence, label, state), library, (number, made.unwrap_or([0; RECORD_SIZE])));
        self.tally.number("make_record", number);
    }

    /// The readings of two sectors, and the active record.
    fn sectors(&mut self) {
        let rng = &mut self.rng;
        let mut sectors = generate::sectors(rng, 2);
        for sector in &mut sectors {
            if rng.chance(8) {
                sector.resize(generate::wrong_length(rng, SECTOR_SIZE), 0xFF);
            }
        }
        let inputs = sectors.each_ref().map(|sector| hex(&sector[..sector.len().min(RECORD_SIZE)]) + sizes(sector));
        let unchanged = sectors.clone();

        for sector in &sectors {
            let library = with_out(rng, |out| ffi::read_sector(sector, out));
            let reading = sector::read(sector);
            assert_same(self.seed, self.case, "read_sector", &inputs, library, reading.answer());
            self.tally.met(format!("read_sector: {}", reading.name()));
            self.tally.number("read_sector", library.0);
        }

        let [first, second] = &sectors;
        let mut before = [0; RECORD_SIZE];
        rng.fill(&mut before);
        let mut record = before;
        let number = ffi::active(first, second, &mut record);
        let part = sector::active_record(first, second);
        let model = if part.is_empty() { before.to_vec() } else { part.to_vec() };
        self.same("active", &inputs, (number, record.to_vec()), (part.len() as u32, model));
        self.same("active, sectors", &inputs, &sectors, &unchanged);
        let readings = [sector::read(first).good(), sector::read(second).good()];
        self.tally.met(match sector::active(&readings) {
            Some(0) => "active: sector 0",
            Some(_) => "active: sector 1",
            None => "active: none",
        });
        if let [Some(first), Some(second)] = readings {
            if first.sequence == second.sequence && first.usable() && second.usable() {
                self.tally.met("active: a tie");
            }
        }
        if first.len() != SECTOR_SIZE || second.len() != SECTOR_SIZE {
            self.tally.met("active: a sector of wrong size");
        }
        self.tally.calls += 1;
    }

    /// The reading of a record that is drawn for its faults, in a sector of the right size or another.
    fn read_drawn(&mut self) {
        let rng = &mut self.rng;
        let drawn = rng.pick(&Drawn::all());
        let mut sector = vec![rng.pick(&[0xFF, 0xFF, 0x00, 0x5A]); SECTOR_SIZE];
        sector[..RECORD_SIZE].copy_from_slice(&drawn.bytes(rng));
        if rng.chance(10) {
            sector.resize(rng.pick(&[0, 1, 31, 32, 33, 4064, 4095, 4097, 4128, 8192]), 0xFF);
        }
        let inputs = (drawn, hex(&sector[..sector.len().min(RECORD_SIZE)]) + sizes(&sector));
        let mut garbage = rng.clone();
        let (library, bytes) = lend(rng, &sector, |sector| with_out(&mut garbage, |out| ffi::read_sector(sector, out)));
        let reading = sector::read(&sector);
        self.same("read_sector", &inputs, library, reading.answer());
        self.same_bytes("read_sector", &inputs, &bytes, &sector);

        let right_size = sector.len() == SECTOR_SIZE;
        let expected = if right_size { drawn.reading() } else { "wrong size" };
        assert_eq!(reading.name(), expected, "the model's reading of {inputs:?}");
        self.tally.met(format!("read_sector: {expected}"));
        self.tally.met(match right_size {
            true => format!("read_sector: {}", drawn.name()),
            false => format!("read_sector: wrong size, {}", drawn.reading()),
        });
        self.tally.number("read_sector", library.0);
    }

    /// A single store and a whole rewrite.
    fn stores(&mut self) {
        let rng = &mut self.rng;
        let sequence = generate::sequence(rng);
        let mut sector = generate::sector(rng, sequence);
        let mut record = generate::record(rng, sequence ^ 1).to_vec();
        if rng.chance(10) {
            sector.resize(generate::wrong_length(rng, SECTOR_SIZE), 0x5A);
        }
        if rng.chance(10) {
            record.resize(generate::wrong_length(rng, RECORD_SIZE), 0x5A);
        }
        let m = match rng.below(10) {
            0..=3 => rng.below(SECTOR_SIZE),
            4..=7 => SECTOR_SIZE + rng.below(RECORD_SIZE),
            8 => rng.pick(&[0, SECTOR_SIZE - 1, SECTOR_SIZE, STORES - 1]),
            _ => rng.pick(&[STORES, STORES + 1, 0x1_0000, 1 << 32, usize::MAX]),
        };
        let inputs = (m, hex(&record), hex(&sector[..sector.len().min(RECORD_SIZE)]) + sizes(&sector));
        let record_before = record.clone();

        let (number, bytes) = lend(rng, &sector, |sector| ffi::store(sector, &record, m));
        let mut model = sector.clone();
        let reply = sector::store(&mut model, &record, m);
        self.same("store", &inputs, number, number_of(&reply));
        self.same_bytes("store", &inputs, &bytes, &model);
        self.tally.number("store", number);

        let (number, bytes) = lend(&mut self.rng, &sector, |sector| ffi::rewrite(sector, &record));
        let mut model = sector;
        let reply = sector::rewrite(&mut model, &record);
        self.same("rewrite", &inputs, number, number_of(&reply));
        self.same_bytes("rewrite", &inputs, &bytes, &model);
        self.same_bytes("rewrite, record", &inputs, &record, &record_before);
        self.tally.number("rewrite", number);
    }

    fn check_list(&mut self) {
        let list = generate::lone_list(&mut self.rng);
        let words = list.words.clone();
        let library = with_out(&mut self.rng, |out| ffi::check_list(&words, list.flash_len, out));
        let reply = partition::check(&list.words, list.flash_len);
        let out = reply.as_ref().map_or([0, 0], |accepted| [accepted.n(), accepted.factory.is_some().into()]);
        let number = number_of(&reply);
        self.same("check_list", &list, library, (number, out));
        self.same("check_list, list", &list, &words, &list.words);
        self.tally.number("check_list", number);
        if let Some(rule) = list.broken {
            assert_eq!(number, 1, "the generator broke no rule: {list:x?}");
            self.tally.met(format!("check_list: rule {rule:?} broken"));
            if rule == Rule::SeventeenSlots {
                self.tally.slots("check_list", list.n);
            }
        }
        if let Ok(accepted) = reply {
            let with = if accepted.factory.is_some() { "with" } else { "without" };
            self.tally.met(format!("check_list: {with} factory"));
            self.tally.slots("check_list", accepted.n());
        }
    }

    fn check_image(&mut self) {
        let (image, mut board) = generate::lone_image(&mut self.rng);
        if self.rng.chance(3) {
            board.chip_id ^= 1 << self.rng.below(16);
        }
        if self.rng.chance(3) {
            board.revision ^= 1 << self.rng.below(16);
        }
        let number = self.check_image_on_both(&image, board);
        if [0, 29].contains(&number) && (17..=32).contains(&record::word_at(&image, image::VERSION_PLACE)) {
            self.tally.met(format!("check_image: {number}, version 17 to 32"));
        }
        self.tally_revision(&image, board, number);
    }

    /// The check of an image that is drawn for its digest.
    fn check_drawn(&mut self) {
        let drawn = generate::drawn_image(&mut self.rng);
        let number = self.check_image_on_both(&drawn.image, drawn.board);
        if !drawn.damaged {
            let expected = digests::number(drawn.digest, drawn.flag);
            assert_eq!(number, expected, "the model's number of {:?}, flag {}", drawn.digest, drawn.flag);
        }
        self.tally.met(digests::met(&drawn, number));
    }

    /// The digest of a message that begins anywhere, with every length of its last block.
    fn sha256(&mut self) {
        let rng = &mut self.rng;
        let length = match rng.below(10) {
            0..=6 => rng.below(300),
            7..=8 => 64 * rng.below(20) + rng.pick(&[0, 1, 54, 55, 56, 57, 62, 63]),
            _ => rng.below(5_000),
        };
        let mut bytes = vec![0; 8 + length];
        rng.fill(&mut bytes);
        let lent = bytes.clone();
        let message = &lent[rng.below(9)..][..length];
        let library = with_out(rng, |out| ffi::sha256(message, out));
        self.same("sha256", &Hex(message), library, (0, sha256::digest(message)));
        self.same_bytes("sha256", &Hex(message), &lent, &bytes);
        self.tally.met(match length % 64 {
            0 => "sha256: whole blocks",
            1..=55 => "sha256: the padding ends the last block",
            _ => "sha256: the padding fills one block more",
        });
        self.tally.calls += 1;
    }

    /// The number that the image gets from both.
    fn check_image_on_both(&mut self, image: &[u8], board: Board) -> u32 {
        let lent = image.to_vec();
        let library = with_out(&mut self.rng, |out| ffi::check_image(&lent, board, out));
        let model = match image::check(image, board) {
            Ok(facts) => (0, [facts.length, facts.entry.into(), facts.version.into(), facts.segments.into()]),
            Err(refusal) => (refusal.number, [refusal.place, 0, 0, 0]),
        };
        let inputs = (board, image.len(), Hex(&image[..image.len().min(400)]));
        self.same("check_image", &inputs, library, model);
        self.same_bytes("check_image", &inputs, &lent, image);
        self.tally.number("check_image", model.0);
        model.0
    }

    /// How the revision lies to an image's minimum and maximum, and which other number the image gets first, or would get next.
    fn tally_revision(&mut self, image: &[u8], board: Board, number: u32) {
        let Some(limits) = Limits::of(image) else {
            return;
        };
        let fits = limits.fit(board.revision);
        assert!(number != if fits { 31 } else { 0 }, "the model gives {number}: {limits:?}, {board:?}");
        if [0, 31].contains(&number) {
            let edges = limits.edges(board.revision);
            edges.for_each(|edge| self.tally.met(format!("check_image: {number}, {edge}")));
        }
        if (20..=23).contains(&number) && !fits {
            self.tally.met(format!("check_image: {number} before 31"));
        }
        if number == 31 {
            let mut without_limits = image.to_vec();
            generate::limit_revisions(&mut without_limits, 0, 0);
            if let Err(refusal) = image::check(&without_limits, board) {
                self.tally.met(format!("check_image: 31 before {}", refusal.number));
            }
        }
    }

    /// The six calls on a node, each on the same bytes.
    fn node(&mut self) {
        let case = generate::node(&mut self.rng);
        self.lay_images(&case);
        self.patches = Overlooked::ALL.map(|thing| (thing, thing.patches(&case, &self.flash)));
        let list = case.list.words.clone();
        self.boot(&case);
        self.set_boot(&case);
        self.mark_valid(&case);
        self.mark_invalid(&case);
        self.state_query(&case);
        self.next_slot(&case);
        let inputs = Inputs(&case);
        self.same("node, list", &inputs, &list, &case.list.words);
        for (offset, image) in &case.images {
            self.same_bytes("node, flash", &inputs, &self.flash[*offset..][..image.len()], image);
        }
        for (offset, image) in &case.images {
            self.flash[*offset..][..image.len()].fill(0xFF);
        }
    }

    fn boot(&mut self, case: &NodeCase) {
        let (library, bytes) = self.on_node(case, |node, rng| with_out(rng, |out| ffi::boot(node, case.settings, out)));
        let settings = plain(case.settings);
        let mut otadata = case.otadata.clone();
        let reply = boot::boot(&case.list.words, self.flash_of(case), &mut otadata, &settings);
        let number = number_of(&reply);
        self.same("boot", &Inputs(case), library, (number, boot_out(&reply, &settings)));
        self.same_bytes("boot", &Inputs(case), &bytes, &otadata);
        self.tally_node("boot", case, number);

        if number != 0 && number != 10 {
            return;
        }
        let (before, after) = (sector::readings(&case.otadata), sector::readings(&otadata));
        let marked = |state| (0..2).filter(|i| before[*i] != after[*i] && after[*i].unwrap().state == state).count();
        match marked(State::Aborted) {
            0 => {}
            1 => self.tally.met("boot: a record marked aborted"),
            _ => self.tally.met("boot: both records marked aborted"),
        }
        if marked(State::Aborted) > 0 && number == 10 {
            self.tally.met("boot: 10 after a record was marked aborted");
        }
        if marked(State::Pending) > 0 {
            self.tally.met("boot: a record marked pending");
        }
        if let Ok(started) = &reply {
            if started.efuse != settings.efuse {
                let kind = register_kind(settings.board.chip_id, settings.efuse);
                self.tally.met(format!("boot: by the search, register raised, {kind}"));
            }
            let way = way_of(started, &otadata);
            self.tally.met(format!("boot: {way}, {}", self.digest_of(case, started.app)));
        }
        self.boot_if_overlooked(case, &reply);
    }

    /// Whether one thing alone is why a boot starts no app or another one, and which way it would have gone.
    fn boot_if_overlooked(&mut self, case: &NodeCase, reply: &Result<Started, Refusal>) {
        let settings = plain(case.settings);
        let model = |flash: &[u8], otadata: &mut [u8]| boot::boot(&case.list.words, flash, otadata, &settings);
        for (thing, overlooked, otadata) in self.if_overlooked(case, &case.otadata, model) {
            if overlooked != *reply {
                let started = overlooked.expect("what passed still does");
                self.tally.met(format!("boot: {} but for the {thing}", way_of(&started, &otadata)));
            }
            if overlooked.is_ok() && reply.is_err() {
                self.tally.met(format!("boot: 10 for the {thing} alone"));
            }
        }
    }

    fn set_boot(&mut self, case: &NodeCase) {
        let (library, bytes) =
            self.on_node(case, |node, rng| with_out(rng, |out| ffi::set_boot(node, case.settings, case.target, out)));
        let settings = plain(case.settings);
        let model = |flash: &[u8], otadata: &mut [u8]| {
            update::set_boot(&case.list.words, flash, otadata, &settings, case.target)
        };
        let mut otadata = case.otadata.clone();
        let reply = model(self.flash_of(case), &mut otadata);
        let number = number_of(&reply);
        self.same("set_boot", &Inputs(case), library, (number, set_boot_out(&reply)));
        self.same_bytes("set_boot", &Inputs(case), &bytes, &otadata);
        self.tally_with_image("set_boot", case, &reply, model);
        if let Ok(image) = reply {
            if sector::active(&sector::readings(&case.otadata)).is_none() {
                self.tally.met("set_boot: no active record");
            }
            let way = written(&case.otadata, &otadata, "named already");
            self.tally.met(format!("set_boot: {way}, {}", self.digest_of(case, App::Slot(case.target))));
            self.boot_after_set_boot(case, bytes, image);
        }
    }

    /// The next boot, on the bytes that a set-boot left, starts the slot that was set, and gives the same image.
    fn boot_after_set_boot(&self, case: &NodeCase, mut otadata: Vec<u8>, image: Loadable) {
        let flash = &self.flash[..case.list.flash_len];
        let mut out = [0; 6];
        let number =
            ffi::boot(ffi::Node { list: &case.list.words, flash, otadata: &mut otadata }, case.settings, &mut out);
        let [kind, slot, _, _, length, entry] = out;
        let expected = (0, [2, case.target, image.length as u32, image.entry]);
        self.same("boot after set_boot", &Inputs(case), (number, [kind, slot, length, entry]), expected);
    }

    fn mark_valid(&mut self, case: &NodeCase) {
        let (library, bytes) =
            self.on_node(case, |node, rng| with_out(rng, |out| ffi::mark_valid(node, case.settings, case.slot, out)));
        let settings = plain(case.settings);
        let model = |flash: &[u8], otadata: &mut [u8]| {
            update::mark_valid(&case.list.words, flash, otadata, &settings, case.slot)
        };
        let mut otadata = case.otadata.clone();
        let reply = model(self.flash_of(case), &mut otadata);
        let number = number_of(&reply);
        self.same("mark_valid", &Inputs(case), library, (number, mark_valid_out(&reply, &settings)));
        self.same_bytes("mark_valid", &Inputs(case), &bytes, &otadata);
        self.tally_with_image("mark_valid", case, &reply, model);
        if let Ok(marked) = reply {
            let way = written(&case.otadata, &otadata, "valid already");
            self.tally.met(format!("mark_valid: {way}, {}", self.digest_of(case, App::Slot(case.slot))));
            if marked.efuse != settings.efuse {
                let kind = register_kind(settings.board.chip_id, settings.efuse);
                self.tally.met(format!("mark_valid: register raised, {kind}"));
            }
        }
    }

    fn mark_invalid(&mut self, case: &NodeCase) {
        let (number, bytes) = self.on_node(case, |node, _| ffi::mark_invalid(node, case.settings, case.slot));
        let settings = plain(case.settings);
        let mut otadata = case.otadata.clone();
        let reply = update::mark_invalid(&case.list.words, self.flash_of(case), &mut otadata, &settings, case.slot);
        self.same("mark_invalid", &Inputs(case), number, number_of(&reply));
        self.same_bytes("mark_invalid", &Inputs(case), &bytes, &otadata);
        self.tally_node("mark_invalid", case, number);
        if let Some(number) = rewritten(&case.otadata, &otadata) {
            self.tally.met(format!("mark_invalid: sector {number} rewritten"));
        }
        if [0, 9].contains(&number) {
            self.fallback_if_overlooked(case, number, otadata);
        }
    }

    /// Whether one thing alone is why there is nothing to fall back to, or another app than there would be.
    fn fallback_if_overlooked(&mut self, case: &NodeCase, number: u32, mut left: Vec<u8>) {
        let (list, settings) = (&case.list.words, plain(case.settings));
        if number == 9 {
            let model =
                |flash: &[u8], otadata: &mut [u8]| update::mark_invalid(list, flash, otadata, &settings, case.slot);
            for (thing, overlooked, _) in self.if_overlooked(case, &left, model) {
                if overlooked.is_ok() {
                    self.tally.met(format!("mark_invalid: 9 for the {thing} alone"));
                }
            }
        } else {
            let boot = |flash: &[u8], otadata: &mut [u8]| boot::boot(list, flash, otadata, &settings);
            let overlooked = self.if_overlooked(case, &left, boot);
            let fallback = boot(self.flash_of(case), &mut left);
            for (thing, other, _) in overlooked {
                if other != fallback {
                    self.tally.met(format!("mark_invalid: another fallback for the {thing} alone"));
                }
            }
        }
    }

    fn state_query(&mut self, case: &NodeCase) {
        let (library, bytes) =
            self.on_node(case, |node, rng| with_out(rng, |out| ffi::state_query(node, case.slot, out)));
        let reply = update::state_query(&case.list.words, self.flash_of(case), &case.otadata, case.slot);
        let out = reply.map_or(0, State::word);
        let number = number_of(&reply);
        self.same("state_query", &Inputs(case), library, (number, [out]));
        self.same_bytes("state_query", &Inputs(case), &bytes, &case.otadata);
        self.tally_node("state_query", case, number);
        if let Ok(state) = reply {
            self.tally.met(format!("state_query: {state:?}"));
            let readings = sector::readings(&case.otadata);
            let names = |number: usize| readings[number].is_some_and(|record| record.slot(case.list.n) == case.slot);
            if !sector::active(&readings).is_some_and(names) {
                self.tally.met("state_query: not through the active record");
                if let [Some(first), Some(second)] = readings {
                    if first.sequence == second.sequence {
                        self.tally.met("state_query: a tie");
                    }
                }
            }
        }
    }

    fn next_slot(&mut self, case: &NodeCase) {
        let (library, bytes) =
            self.on_node(case, |node, rng| with_out(rng, |out| ffi::next_slot(node, case.settings, case.running, out)));
        let running = if case.running == ffi::RUNNING_FACTORY { App::Factory } else { App::Slot(case.running) };
        let settings = plain(case.settings);
        let reply = update::next_slot(&case.list.words, self.flash_of(case), &case.otadata, &settings, running);
        let number = number_of(&reply);
        self.same("next_slot", &Inputs(case), library, (number, [reply.unwrap_or(0)]));
        self.same_bytes("next_slot", &Inputs(case), &bytes, &case.otadata);
        self.tally_node("next_slot", case, number);
        self.next_slot_again(case, (library, bytes));
        if number == 0 {
            match running {
                App::Factory if case.list.words.chunks(3).all(|entry| entry[0] != 0) => {
                    self.tally.met("next_slot: from factory, not listed")
                }
                App::Factory => self.tally.met("next_slot: from factory"),
                App::Slot(slot) if slot + 1 == case.list.n => self.tally.met("next_slot: from the last slot"),
                _ => {}
            }
        }
    }

    /// No image is read for the next slot: with another revision, number, `out` and bytes are the same.
    fn next_slot_again(&mut self, case: &NodeCase, first: ((u32, [u32; 1]), Vec<u8>)) {
        let mut settings = case.settings;
        settings.board.revision ^= 1 << self.rng.below(16);
        let second =
            self.on_node(case, |node, rng| with_out(rng, |out| ffi::next_slot(node, settings, case.running, out)));
        self.same("next_slot with another revision", &Inputs(case), second.0, first.0);
        self.same_bytes("next_slot with another revision", &Inputs(case), &second.1, &first.1);
        self.tally.calls += 1;
        if first.0 .0 == 0 {
            self.tally.met("next_slot: done, and again with another revision");
        }
    }

    fn lay_images(&mut self, case: &NodeCase) {
        for (offset, image) in &case.images {
            self.flash[*offset..][..image.len()].copy_from_slice(image);
        }
    }

    /// What the model gives where one thing is overlooked, for each that an image of the node is refused for, and how it leaves otadata.
    fn if_overlooked<R>(
        &mut self,
        case: &NodeCase,
        before: &[u8],
        model: impl Fn(&[u8], &mut [u8]) -> R,
    ) -> Vec<(&'static str, R, Vec<u8>)> {
        let flash = &mut self.flash[..case.list.flash_len];
        let mut replies = Vec::new();
        for (thing, patches) in self.patches.iter_mut().filter(|(_, patches)| !patches.is_empty()) {
            let mut otadata = before.to_vec();
            exchange(flash, patches);
            let reply = model(flash, &mut otadata);
            exchange(flash, patches);
            replies.push((thing.name(), reply, otadata));
        }
        replies
    }

    /// Whether the image of an app that was accepted has a digest.
    fn digest_of(&self, case: &NodeCase, app: App) -> &'static str {
        let subtype = match app {
            App::Factory => 0,
            App::Slot(slot) => 16 + slot,
        };
        let entry = case.list.words.chunks(3).find(|entry| entry[0] == subtype).expect("the app is listed");
        match self.flash[entry[1] as usize + image::FLAG_PLACE] {
            0 => "no digest",
            _ => "digest",
        }
    }

    fn flash_of(&self, case: &NodeCase) -> &[u8] {
        &self.flash[..case.list.flash_len]
    }

    /// Lends the case's list, flash and a copy of its otadata to a call; gives the reply and otadata after it.
    fn on_node<R>(&mut self, case: &NodeCase, call: impl FnOnce(ffi::Node, &mut Rng) -> R) -> (R, Vec<u8>) {
        let flash = &self.flash[..case.list.flash_len];
        let mut garbage = self.rng.clone();
        lend(&mut self.rng, &case.otadata, |otadata| {
            call(ffi::Node { list: &case.list.words, flash, otadata }, &mut garbage)
        })
    }

    /// Test 1 comes before all others, and a list breaks a rule exactly where the generator has broken one.
    fn tally_node(&mut self, call: &'static str, case: &NodeCase, number: u32) {
        assert_eq!(number == 1, case.list.broken.is_some(), "{call}: {:?}", Inputs(case));
        self.tally.number(call, number);
        if number == 0 || case.list.broken == Some(Rule::SeventeenSlots) {
            self.tally.slots(call, case.list.n);
        }
        if number == 0 {
            for sector in case.otadata.chunks(SECTOR_SIZE) {
                self.tally.met(format!("{call}: a sector reads {}", sector::read(sector).name()));
            }
        }
    }

    /// `model` gave the reply on the case's own images.
    fn tally_with_image<T>(
        &mut self,
        call: &'static str,
        case: &NodeCase,
        reply: &Result<T, Refusal>,
        model: impl Fn(&[u8], &mut [u8]) -> Result<T, Refusal>,
    ) {
        self.tally_node(call, case, number_of(reply));
        match reply {
            Err(Refusal::Image(refusal)) => {
                self.tally.image_number(call, refusal.number);
                for (thing, overlooked, _) in self.if_overlooked(case, &case.otadata, model) {
                    if overlooked.is_ok() {
                        self.tally.met(format!("{call}: 5 for the {thing} alone"));
                    }
                }
            }
            Err(Refusal::TooOld) => {
                let kind = register_kind(case.settings.board.chip_id, case.settings.efuse);
                self.tally.met(format!("{call}: 6, {kind}"));
            }
            _ => {}
        }
    }

    fn same<T: PartialEq + Debug>(&self, call: &str, inputs: &dyn Debug, library: T, model: T) {
        assert_same(self.seed, self.case, call, inputs, library, model);
    }

    /// Every byte, lent and handed back.
    fn same_bytes(&self, call: &str, inputs: &dyn Debug, library: &[u8], model: &[u8]) {
        if library != model {
            let differ = library.iter().zip(model).position(|(library, model)| library != model);
            let place = differ.unwrap_or(library.len().min(model.len()));
            let bytes = |bytes: &[u8]| hex(&bytes[place..bytes.len().min(place + 32)]);
            let (library, model) = (bytes(library), bytes(model));
            let call = format!("{call}, bytes from {place}");
            assert_same(self.seed, self.case, &call, inputs, library, model);
        }
    }
}

/// What the library gave is what the model gives.
fn assert_same<T: PartialEq + Debug>(seed: u64, case: u64, call: &str, inputs: &dyn Debug, library: T, model: T) {
    assert!(
        library == model,
        "{call} differs: seed {seed}, case {case}\n  library {library:x?}\n  model   {model:x?}\n  inputs  {inputs:x?}"
    );
}

/// The settings as the model takes them.
pub fn plain(settings: ffi::Settings) -> Settings {
    Settings {
        board: settings.board,
        efuse: settings.efuse,
        rollback: settings.rollback != 0,
        anti_rollback: settings.anti_rollback != 0,
    }
}

/// How many bits of a register hold the version, and whether there are ones above them.
fn register_kind(chip_id: u16, efuse: u32) -> &'static str {
    match settings::efuse_width(chip_id) {
        32 => "32 bits",
        _ if efuse >> 16 == 0 => "16 bits",
        _ => "16 bits, ones above",
    }
}

/// Which way a boot has gone that left otadata so.
fn way_of(started: &Started, otadata: &[u8]) -> &'static str {
    let [active, other, factory, search] = WAYS;
    match (started.app, started.sector) {
        (App::Factory, _) => factory,
        (_, None) => search,
        (_, sector) if sector == sector::active(&sector::readings(otadata)) => active,
        _ => other,
    }
}

/// What `ota_boot` gives for the model's reply.
pub fn boot_out(reply: &Result<Started, Refusal>, settings: &Settings) -> [u32; 6] {
    let Ok(Started { app, sector, efuse, image }) = *reply else {
        return [0, 0, 2, settings.efuse, 0, 0];
    };
    let (kind, slot) = match app {
        App::Factory => (1, 0),
        App::Slot(slot) => (2, slot),
    };
    let length = image.length.try_into().expect("an image is shorter than the flash");
    [kind, slot, sector.unwrap_or(2) as u32, efuse, length, image.entry]
}

/// What `ota_set_boot` gives for the model's reply.
pub fn set_boot_out(reply: &Result<Loadable, Refusal>) -> [u64; 4] {
    match reply {
        Ok(image) => [0, 0, image.length, image.entry.into()],
        Err(Refusal::Image(refusal)) => [refusal.number.into(), refusal.place, 0, 0],
        Err(_) => [0; 4],
    }
}

/// What `ota_mark_valid` gives for the model's reply.
pub fn mark_valid_out(reply: &Result<Marked, Refusal>, settings: &Settings) -> [u64; 5] {
    let register = reply.map_or(settings.efuse, |marked| marked.efuse);
    let [number, place, length, entry] = set_boot_out(&reply.map(|marked| marked.image));
    [register.into(), number, place, length, entry]
}

/// Which sector was rewritten, or what it means that none was.
fn written(before: &[u8], after: &[u8], none: &str) -> String {
    rewritten(before, after).map_or(none.into(), |number| format!("sector {number} rewritten"))
}

/// The sector in which the bytes differ.
fn rewritten(before: &[u8], after: &[u8]) -> Option<usize> {
    before.iter().zip(after).position(|(before, after)| before != after).map(|place| place / SECTOR_SIZE)
}

const GUARD: usize = 32;

/// Lends a copy of the bytes to a call. Garbage stands on both sides of it and must stay.
fn lend<R>(rng: &mut Rng, bytes: &[u8], call: impl FnOnce(&mut [u8]) -> R) -> (R, Vec<u8>) {
    let mut guards = [0; 2 * GUARD];
    rng.fill(&mut guards);
    let (front, back) = guards.split_at(GUARD);
    let mut all = [front, bytes, back].concat();
    let end = GUARD + bytes.len();
    let reply = call(&mut all[GUARD..end]);
    assert!(all[..GUARD] == *front && all[end..] == *back, "a byte beside the lent ones was written");
    all.truncate(end);
    (reply, all.split_off(GUARD))
}

/// Gives a call an `out` full of garbage. Garbage stands on both sides of it too and must stay.
fn with_out<T: Garbage, const N: usize>(rng: &mut Rng, call: impl FnOnce(&mut [T; N]) -> u32) -> (u32, [T; N]) {
    let mut all: Vec<T> = (0..N + 8).map(|_| T::of(rng.next())).collect();
    let before = all.clone();
    let number = call((&mut all[4..4 + N]).try_into().unwrap());
    assert!(all[..4] == before[..4] && all[4 + N..] == before[4 + N..], "a word beside `out` was written");
    (number, all[4..4 + N].try_into().unwrap())
}

trait Garbage: Copy + PartialEq + Debug {
    fn of(bits: u64) -> Self;
}

impl Garbage for u8 {
    fn of(bits: u64) -> u8 {
        bits as u8
    }
}

impl Garbage for u32 {
    fn of(bits: u64) -> u32 {
        bits as u32
    }
}

impl Garbage for u64 {
    fn of(bits: u64) -> u64 {
        bits
    }
}

pub fn hex(bytes: &[u8]) -> String {
    bytes.iter().fold(String::new(), |mut text, byte| {
        let _ = write!(text, "{byte:02x}");
        text
    })
}

/// Bytes as they are printed where the two differ, and only then.
struct Hex<'a>(&'a [u8]);

impl Debug for Hex<'_> {
    fn fmt(&self, f: &mut std::fmt::Formatter) -> std::fmt::Result {
        f.write_str(&hex(self.0))
    }
}

/// What to add to the text of a sector of wrong size.
fn sizes(sector: &[u8]) -> &'static str {
    match sector.len() {
        SECTOR_SIZE => "",
        length if length < SECTOR_SIZE => " (too short)",
        _ => " (too long)",
    }
}

/// A node's case as it is printed where the two differ.
struct Inputs<'a>(&'a NodeCase);

impl Debug for Inputs<'_> {
    fn fmt(&self, f: &mut std::fmt::Formatter) -> std::fmt::Result {
        let NodeCase { list, images, otadata, settings, slot, target, running } = self.0;
        writeln!(f, "{settings:x?}, slot {slot:#x}, target {target:#x}, running {running:#x}")?;
        writeln!(
            f,
            "  list of {} slots, {:?} broken, flash of {:#x}: {:x?}",
            list.n, list.broken, list.flash_len, list.words
        )?;
        writeln!(f, "  otadata of {} bytes", otadata.len())?;
        for sector in otadata.chunks(SECTOR_SIZE) {
            writeln!(f, "    {}", hex(&sector[..sector.len().min(RECORD_SIZE)]))?;
        }
        for (offset, image) in images {
            writeln!(f, "  image at {offset:#x}, {} bytes: {}", image.len(), hex(&image[..image.len().min(48)]))?;
        }
        Ok(())
    }
}
