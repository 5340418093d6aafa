//! Makes the cases: plain ones for examples, and random ones, good and damaged, in which every refusal comes up.

use crate::ffi;
use crate::image::*;
use crate::partition::{FLASH_MAX, SLOTS_MAX, SLOTS_MIN};
use crate::record::{check_word, raw_bytes, State, HIGHEST_SEQUENCE, LABEL_SIZE, RECORD_SIZE};
use crate::rng::Rng;
use crate::sector::{self, OTADATA_SIZE, SECTOR_SIZE};
use crate::settings::{efuse_width, Board};
use crate::sha256;

const PAGE: usize = 4_096;
const BLOCK: usize = 65_536;
/// The flash that the cases share is longer than the longest that is allowed.
pub const FLASH_SHARED: usize = FLASH_MAX + BLOCK;

// Plain cases.

/// An image of one segment of `length` bytes, zero but for the descriptor's word and version.
pub fn plain_image(chip_id: u16, version: u32, length: usize, digest: bool) -> Vec<u8> {
    let mut data = vec![0; length];
    data[..4].copy_from_slice(&DESCRIPTOR_WORD.to_le_bytes());
    data[4..8].copy_from_slice(&version.to_le_bytes());
    let mut image = build_image(chip_id, 0x4008_0000, &[data], digest);
    redo_digest(&mut image);
    image
}

/// The image of the app at a place of a plain node. From one place to the next it is longer, has another entry address, and takes turns
/// between no digest and a digest.
fn app_image(chip_id: u16, version: u32, place: usize) -> Vec<u8> {
    let mut image = plain_image(chip_id, version, 256 + 16 * place, place % 2 == 1);
    edit(&mut image, |image| image[4..8].copy_from_slice(&plain_loadable(place).entry.to_le_bytes()));
    image
}

/// The whole length and the entry address of that image.
pub fn plain_loadable(place: usize) -> Loadable {
    let digest = DIGEST_SIZE * (place % 2);
    Loadable { length: (304 + 16 * place + digest) as u64, entry: 0x4008_0000 + 0x0102_0304 * place as u32 }
}

/// A node of chip 0.
pub fn plain_node(slots: &[Option<u32>], factory: Option<u32>) -> (Vec<u32>, Vec<u8>) {
    plain_node_of(0, slots, factory)
}

/// A list and flash with a slot of 4,096 bytes for each item, and after them factory where it is given. A slot holds a plain image for
/// that chip with that version, or erased bytes; the images differ in length and entry address.
pub fn plain_node_of(chip_id: u16, slots: &[Option<u32>], factory: Option<u32>) -> (Vec<u32>, Vec<u8>) {
    let apps = slots.iter().zip(16..).map(|(version, subtype)| (subtype, *version));
    let apps: Vec<_> = apps.chain(factory.map(|version| (0, Some(version)))).collect();
    let mut list = Vec::new();
    let mut flash = vec![0xFF; apps.len() * BLOCK];
    for (block, (subtype, version)) in apps.into_iter().enumerate() {
        let offset = block * BLOCK;
        list.extend([subtype, offset as u32, PAGE as u32]);
        if let Some(version) = version {
            let image = app_image(chip_id, version, block);
            flash[offset..][..image.len()].copy_from_slice(&image);
        }
    }
    (list, flash)
}

/// Sets the minimum and the maximum revision of an image. The checksum doesn't cover them; a digest that was right is made right again.
pub fn limit_revisions(image: &mut [u8], minimum: u16, maximum: u16) {
    edit(image, |image| put_limits(image, minimum, maximum));
}

fn put_limits(image: &mut [u8], minimum: u16, maximum: u16) {
    image[MINIMUM_PLACE..][..2].copy_from_slice(&minimum.to_le_bytes());
    image[MAXIMUM_PLACE..][..2].copy_from_slice(&maximum.to_le_bytes());
}

/// Changes an image. A digest that was right for the image before is right for it afterwards too; any other stays as it is.
pub fn edit(image: &mut [u8], change: impl FnOnce(&mut [u8])) {
    let right = has_right_digest(image);
    change(image);
    if right {
        redo_digest(image);
    }
}

/// Where an image's digest begins. None where the flag isn't 1, or the bytes don't hold all segments, the padding and the digest.
pub fn digest_place(image: &[u8]) -> Option<usize> {
    if *image.get(FLAG_PLACE)? != 1 {
        return None;
    }
    let after = |end: usize| Some(end + SEGMENT_HEADER_SIZE + segment_data(image, end)?.len());
    let end = (0..image[1]).try_fold(HEADER_SIZE, |end, _| after(end))?;
    let place = padded_end(end);
    (place + DIGEST_SIZE <= image.len()).then_some(place)
}

/// Whether an image has a digest, and it is right.
pub fn has_right_digest(image: &[u8]) -> bool {
    digest_place(image).is_some_and(|place| image[place..][..DIGEST_SIZE] == sha256::digest(&image[..place]))
}

/// Gives an image a right digest, where there is room after it for one.
pub fn add_digest(image: &mut [u8]) {
    image[FLAG_PLACE] = 1;
    redo_digest(image);
}

/// Makes the digest of an image wrong.
pub fn spoil_digest(image: &mut [u8]) {
    let place = digest_place(image).expect("the image has a digest");
    image[place + DIGEST_SIZE - 1] ^= 1;
}

/// Makes the digest of an image right, where it has one.
pub fn redo_digest(image: &mut [u8]) {
    if let Some(place) = digest_place(image) {
        let (hashed, digest) = image.split_at_mut(place);
        digest[..DIGEST_SIZE].copy_from_slice(&sha256::digest(hashed));
    }
}

/// A minimum and a maximum revision, and the first and the last revision that fit, if any does.
pub const LIMITS: [(u16, u16, Option<[u16; 2]>); 30] = [
    (0, 0, Some([0, 65_535])),
    (0, 65_535, Some([0, 65_535])),
    (300, 0, Some([300, 65_535])),
    (300, 65_535, Some([300, 65_535])),
    (0, 300, Some([0, 300])),
    (300, 300, Some([300, 300])),
    (300, 301, Some([300, 301])),
    (199, 399, Some([199, 399])),
    // The minimum is above the maximum.
    (301, 300, None),
    (2, 1, None),
    (400, 100, None),
    (65_535, 65_534, None),
    // At the ends.
    (1, 0, Some([1, 65_535])),
    (0, 1, Some([0, 1])),
    (1, 1, Some([1, 1])),
    (0, 65_534, Some([0, 65_534])),
    (65_534, 0, Some([65_534, 65_535])),
    (65_535, 0, Some([65_535, 65_535])),
    (65_535, 65_535, Some([65_535, 65_535])),
    // Both bytes of a field count, the second one more; none is a sign.
    (0x00FF, 0, Some([0x00FF, 65_535])),
    (0x0100, 0, Some([0x0100, 65_535])),
    (0, 0x00FF, Some([0, 0x00FF])),
    (0, 0x0100, Some([0, 0x0100])),
    (0, 0xFF00, Some([0, 0xFF00])),
    (0x0102, 0x0201, Some([0x0102, 0x0201])),
    (0x0201, 0x0102, None),
    (0x7FFF, 0x8000, Some([0x7FFF, 0x8000])),
    (0x8000, 0x7FFF, None),
    (0x8000, 0, Some([0x8000, 65_535])),
    (0, 0x7FFF, Some([0, 0x7FFF])),
];

/// Otadata whose sectors hold the given records and are otherwise erased.
pub fn two_sectors(first: Option<[u8; RECORD_SIZE]>, second: Option<[u8; RECORD_SIZE]>) -> Vec<u8> {
    let mut otadata = vec![0xFF; OTADATA_SIZE];
    for (sector, record) in otadata.chunks_mut(SECTOR_SIZE).zip([first, second]) {
        if let Some(record) = record {
            sector[..RECORD_SIZE].copy_from_slice(&record);
        }
    }
    otadata
}

/// An image of the given segments' data, with padding, checksum and, if asked for, room for a digest.
pub fn build_image(chip_id: u16, entry: u32, segments: &[Vec<u8>], digest: bool) -> Vec<u8> {
    let mut image = vec![0; HEADER_SIZE];
    image[0] = MAGIC;
    image[1] = segments.len() as u8;
    image[4..8].copy_from_slice(&entry.to_le_bytes());
    image[12..14].copy_from_slice(&chip_id.to_le_bytes());
    image[FLAG_PLACE] = digest.into();
    let mut checksum = CHECKSUM_START;
    for (data, number) in segments.iter().zip(0..) {
        image.extend((0x3F40_0020_u32 + 0x1_0000 * number).to_le_bytes());
        image.extend((data.len() as u32).to_le_bytes());
        image.extend(data);
        checksum = data.iter().fold(checksum, |sum, byte| sum ^ byte);
    }
    image.resize(padded_end(image.len()), 0);
    *image.last_mut().unwrap() = checksum;
    if digest {
        image.resize(image.len() + DIGEST_SIZE, 0);
    }
    image
}

// Records and sectors.

pub fn sequence(rng: &mut Rng) -> u32 {
    match rng.below(20) {
        0..=7 => 1 + rng.below(40) as u32,
        8..=12 => HIGHEST_SEQUENCE - rng.below(16) as u32,
        13 => rng.pick(&[0, 0xFFFF_FFFF]),
        14..=15 => 0x8000_0000 - 8 + rng.below(16) as u32,
        _ => rng.word(),
    }
}

/// A sequence beside another: the same, a neighbour, or one that names the same of n slots.
fn sequence_beside(rng: &mut Rng, other: u32, n: u32) -> u32 {
    match rng.below(10) {
        0..=1 => other,
        2 => other.wrapping_add(1),
        3 => other.wrapping_sub(1),
        4 => other.wrapping_add(n),
        5 => other.wrapping_sub(n),
        6 => other ^ 0x8000_0000,
        _ => sequence(rng),
    }
}

pub fn state_word(rng: &mut Rng) -> u32 {
    match rng.below(20) {
        0 => rng.pick(&[5, 6, 0x100, 0xFFFF_FF02, 0xFFFF_FFFE, 0x8000_0000]),
        1..=3 => State::Valid.word(),
        4..=6 => State::New.word(),
        7..=9 => State::Pending.word(),
        10..=11 => State::Invalid.word(),
        12..=13 => State::Aborted.word(),
        _ => rng.pick(&State::ALL).word(),
    }
}

pub fn label(rng: &mut Rng) -> [u8; LABEL_SIZE] {
    let mut label = [0xFF; LABEL_SIZE];
    match rng.below(10) {
        0..=5 => {}
        6 => label = [0; LABEL_SIZE],
        7 => label[..5].copy_from_slice(b"ota_0"),
        _ => rng.fill(&mut label),
    }
    label
}

/// The 32 bytes of a record, good or damaged.
pub fn record(rng: &mut Rng, sequence: u32) -> [u8; RECORD_SIZE] {
    let (label, state) = (label(rng), state_word(rng));
    let mut bytes = raw_bytes(sequence, &label, state);
    match rng.below(40) {
        // A wrong check word.
        0 => bytes[28 + rng.below(4)] ^= 1 << rng.below(8),
        1 => bytes[28..].copy_from_slice(&rng.word().to_le_bytes()),
        // The erasing was cut.
        2 => bytes[..1 + rng.below(31)].fill(0xFF),
        // The programming was cut.
        3 => bytes[..1 + rng.below(31)].fill(0xFF),
        4 => bytes[rng.below(32)] ^= 1 << rng.below(8),
        5 => bytes = [rng.pick(&[0, 0xFF]); RECORD_SIZE],
        6 => bytes = [0xFF; RECORD_SIZE],
        7 => rng.fill(&mut bytes),
        _ => {}
    }
    bytes
}

/// How a record is drawn for its reading alone.
#[derive(Clone, Copy, PartialEq, Eq, Debug)]
pub enum Drawn {
    AllFf,
    /// All FF but for one bit of a field.
    OneBitCleared(Field),
    AllZero,
    /// With these fields wrong: a sequence of 0 or 0xFFFFFFFF, the check word, the state. It isn't all FF.
    Faults {
        sequence: Option<u32>,
        check: bool,
        state: bool,
    },
}

/// The name of a record's field, and where it begins and ends.
pub type Field = (&'static str, usize, usize);

const FIELDS: [Field; 4] = [("sequence", 0, 4), ("label", 4, 24), ("state", 24, 28), ("check word", 28, 32)];

impl Drawn {
    /// All of them, with every combination of faults.
    pub fn all() -> Vec<Drawn> {
        let mut all = vec![Drawn::AllFf, Drawn::AllZero];
        all.extend(FIELDS.map(Drawn::OneBitCleared));
        for sequence in [None, Some(0), Some(0xFFFF_FFFF)] {
            for check in [false, true] {
                all.extend([false, true].map(|state| Drawn::Faults { sequence, check, state }));
            }
        }
        all
    }

    pub fn name(self) -> String {
        match self {
            Drawn::AllFf => "all FF".into(),
            Drawn::OneBitCleared((name, ..)) => format!("all FF but one bit of the {name}"),
            Drawn::AllZero => "all zero".into(),
            Drawn::Faults { sequence, check, state } => {
                let sequence = sequence.map(|word| if word == 0 { "sequence 0" } else { "sequence FFFFFFFF" });
                let faults = [sequence, check.then_some("check"), state.then_some("state")];
                let faults: Vec<&str> = faults.into_iter().flatten().collect();
                if faults.is_empty() {
                    "no fault".into()
                } else {
                    format!("faults {}", faults.join("+"))
                }
            }
        }
    }

    /// The name of the reading that it must have: the first fault decides.
    pub fn reading(self) -> &'static str {
        match self {
            Drawn::AllFf => "blank",
            // FF is the check word of sequence 0 alone.
            Drawn::OneBitCleared(("sequence", ..)) => "bad check",
            Drawn::OneBitCleared(_) | Drawn::AllZero | Drawn::Faults { sequence: Some(_), .. } => "bad sequence",
            Drawn::Faults { check: true, .. } => "bad check",
            Drawn::Faults { state: true, .. } => "bad state",
            Drawn::Faults { .. } => "good",
        }
    }

    pub fn bytes(self, rng: &mut Rng) -> [u8; RECORD_SIZE] {
        let mut bytes = [0xFF; RECORD_SIZE];
        match self {
            Drawn::AllFf => {}
            Drawn::OneBitCleared((_, begin, end)) => bytes[begin + rng.below(end - begin)] ^= 1 << rng.below(8),
            Drawn::AllZero => bytes.fill(0),
            Drawn::Faults { sequence: wrong, check, state } => {
                let sequence = wrong.unwrap_or_else(|| sequence(rng).clamp(1, HIGHEST_SEQUENCE));
                let state = if state { wrong_state(rng) } else { rng.pick(&State::ALL).word() };
                bytes = raw_bytes(sequence, &label(rng), state);
                if check {
                    bytes[28..].copy_from_slice(&wrong_check(rng, sequence).to_le_bytes());
                }
                if bytes == [0xFF; RECORD_SIZE] {
                    bytes[4 + rng.below(LABEL_SIZE)] = 0;
                }
            }
        }
        bytes
    }
}

fn wrong_state(rng: &mut Rng) -> u32 {
    rng.pick(&[5, 6, 0xFF, 0x100, 0x0100_0000, 0xFFFF_FF02, 0xFFFF_FFFE, 0x7FFF_FFFF, 0x8000_0000])
}

fn wrong_check(rng: &mut Rng, sequence: u32) -> u32 {
    let right = check_word(sequence);
    let (one_bit, any) = (right ^ 1 << rng.below(32), rng.word());
    let word = rng.pick(&[one_bit, one_bit, any, 0, 0xFFFF_FFFF, !right, check_word(sequence ^ 1)]);
    if word == right {
        one_bit
    } else {
        word
    }
}

/// A sector: a record, and after it erased bytes, or any.
pub fn sector(rng: &mut Rng, sequence: u32) -> Vec<u8> {
    let mut sector = vec![0xFF; SECTOR_SIZE];
    sector[..RECORD_SIZE].copy_from_slice(&record(rng, sequence));
    match rng.below(10) {
        0 => rng.fill(&mut sector[RECORD_SIZE..]),
        1 => sector[RECORD_SIZE..].fill(0),
        2 => sector[SECTOR_SIZE - 1] = 0,
        3 => sector[RECORD_SIZE] = 0x5A,
        _ => {}
    }
    sector
}

/// Two sectors, often with sequences near each other.
pub fn sectors(rng: &mut Rng, n: u32) -> [Vec<u8>; 2] {
    let first = sequence(rng);
    let second = sequence_beside(rng, first, n);
    let mut pair = [sector(rng, first), sector(rng, second)];
    if rng.chance(6) {
        pair.iter_mut().for_each(|sector| sector.fill(0xFF));
    }
    pair
}

/// A length near the right one, or far from it.
pub fn wrong_length(rng: &mut Rng, right: usize) -> usize {
    rng.pick(&[0, 1, right / 2, right - 32, right - 1, right + 1, right + 32, 2 * right])
}

// Images.

/// A chip id: as often the one with 32 version bits as another.
pub fn chip_id(rng: &mut Rng) -> u16 {
    match rng.below(4) {
        0 | 1 => 0,
        2 => rng.pick(&[2, 5, 9, 0x0D, 16, 0x0100, 0xFFFF]),
        _ => rng.word() as u16,
    }
}

/// A chip's revision, major × 100 + minor.
fn revision(rng: &mut Rng) -> u16 {
    match rng.below(3) {
        0 => rng.pick(&[0, 1, 2, 65_534, 65_535]),
        1 => rng.pick(&[99, 100, 199, 255, 256, 300, 399, 0x7FFF, 0x8000]),
        _ => rng.word() as u16,
    }
}

fn board(rng: &mut Rng) -> Board {
    Board { chip_id: chip_id(rng), revision: revision(rng) }
}

/// A minimum and a maximum. The revision fits, unless it is to be below the one or above the other and can be.
fn random_limits(rng: &mut Rng, revision: u16, damages: &[Damage]) -> [u16; 2] {
    let minimum = match damages.contains(&BelowMinimum) && revision < 65_535 {
        true => minimum_above(rng, revision),
        false => fitting_minimum(rng, revision),
    };
    let maximum = match damages.contains(&AboveMaximum) && revision > 1 {
        true => maximum_below(rng, revision),
        false => fitting_maximum(rng, revision),
    };
    [minimum, maximum]
}

/// A minimum that the revision isn't below: often equal, one less or 0, or one whose lower byte is higher.
fn fitting_minimum(rng: &mut Rng, revision: u16) -> u16 {
    let any = rng.below(revision as usize + 1) as u16;
    let below = revision.saturating_sub(1);
    let lower_page = (revision.saturating_sub(0x0100) | 0x00FF).min(revision);
    rng.pick(&[0, 0, revision, below, lower_page, any])
}

/// A maximum that the revision isn't above: often none, equal or one more, or one whose lower byte is lower.
fn fitting_maximum(rng: &mut Rng, revision: u16) -> u16 {
    let any = revision + rng.below(0x1_0000 - revision as usize) as u16;
    let above = revision.saturating_add(1);
    let upper_page = (revision.saturating_add(0x0100) & 0xFF00).max(revision);
    rng.pick(&[0, 0, 65_535, 65_535, revision, above, upper_page, any])
}

/// A minimum above the revision: often one more, or one that differs in one byte.
fn minimum_above(rng: &mut Rng, revision: u16) -> u16 {
    let least = revision + 1;
    let any = least + rng.below(0x1_0000 - least as usize) as u16;
    let upper_page = revision.saturating_add(0x0100);
    rng.pick(&[least, least, 65_535, upper_page, upper_page & 0xFF00, revision | 0x00FF, any]).max(least)
}

/// A maximum below the revision: often one less, or one that differs in one byte.
fn maximum_below(rng: &mut Rng, revision: u16) -> u16 {
    let most = revision - 1;
    let any = 1 + rng.below(most as usize) as u16;
    let lower_page = revision.saturating_sub(0x0100);
    rng.pick(&[most, most, 1, lower_page, lower_page | 0x00FF, revision & 0xFF00, any]).clamp(1, most)
}

/// A version that the chip can hold.
fn version(rng: &mut Rng, chip_id: u16) -> u32 {
    let width = efuse_width(chip_id);
    match rng.below(8) {
        0 => rng.below(width as usize + 1) as u32,
        1 => width - rng.below(2) as u32,
        2 | 3 => rng.below(9) as u32,
        _ => rng.below(5) as u32,
    }
}

/// A version that it can't: one or two above, or far above.
fn version_too_high(rng: &mut Rng, chip_id: u16) -> u32 {
    let width = efuse_width(chip_id);
    rng.pick(&[width + 1, width + 1, width + 2, 2 * width, 33, 255, 256, 0x0100_0000, 0x8000_0001, 0xFFFF_FFFF])
}

/// What is wrong with an image.
#[derive(Clone, Copy, PartialEq, Eq, Debug)]
pub enum Damage {
    Magic,
    NoSegments,
    ManySegments,
    OneMoreSegment,
    Chip,
    BelowMinimum,
    AboveMaximum,
    DigestFlag,
    SegmentLength,
    SegmentPassesTheEnd,
    ShortFirstSegment,
    Descriptor,
    Checksum,
    Version,
    AnyByte,
    CutNearTheEnd,
    CutAnywhere,
    CutBelow288,
}

use Damage::*;

/// Damage that keeps an image's length, for one that lies in a slot.
const IN_PLACE: [Damage; 15] = [
    Magic,
    NoSegments,
    ManySegments,
    OneMoreSegment,
    Chip,
    BelowMinimum,
    AboveMaximum,
    DigestFlag,
    SegmentLength,
    SegmentPassesTheEnd,
    ShortFirstSegment,
    Descriptor,
    Checksum,
    Version,
    AnyByte,
];
const CUTS: [Damage; 3] = [CutNearTheEnd, CutAnywhere, CutBelow288];

impl Damage {
    /// Whether it is done to the whole image, when that has its digest.
    fn comes_last(self) -> bool {
        self == AnyByte || CUTS.contains(&self)
    }
}

/// A change that no test of an image sees but that of the digest.
#[derive(Clone, Copy, PartialEq, Eq, Debug)]
pub enum Unseen {
    /// The same bit of two bytes of data, so that the checksum stays right.
    TwoDataBits,
    /// The padding before the checksum, which is zero otherwise.
    Padding,
    /// A byte that no test reads, of the image's header or a segment's.
    Header,
}

/// How the digest of an image is drawn.
#[derive(Clone, Copy, PartialEq, Eq, Debug)]
pub enum Digest {
    Right,
    /// Made after a change, so that it is right.
    After(Unseen),
    /// Made before a change.
    Before(Unseen),
    /// One bit of this byte is wrong.
    OneByte(usize),
    /// The same bit of two bytes is wrong.
    TwoBytes,
    AnyBytes,
    /// The bytes of each word stand in the other order.
    WordsReversed,
    /// Of the bytes up to the end of the last segment.
    UpToTheEnd,
    /// Of all bytes before the checksum.
    UpToTheChecksum,
}

impl Digest {
    pub const RIGHT: [Digest; 4] = [
        Digest::Right,
        Digest::After(Unseen::TwoDataBits),
        Digest::After(Unseen::Padding),
        Digest::After(Unseen::Header),
    ];

    /// All that are wrong.
    pub fn wrong() -> Vec<Digest> {
        let mut wrong: Vec<Digest> = (0..DIGEST_SIZE).map(Digest::OneByte).collect();
        wrong.extend([Unseen::TwoDataBits, Unseen::Padding, Unseen::Header].map(Digest::Before));
        wrong.extend([Digest::TwoBytes, Digest::AnyBytes, Digest::WordsReversed]);
        wrong.extend([Digest::UpToTheEnd, Digest::UpToTheChecksum]);
        wrong
    }

    pub fn is_right(self) -> bool {
        Digest::RIGHT.contains(&self)
    }
}

/// The lengths of the segments of a good image.
fn segment_lengths(rng: &mut Rng) -> Vec<usize> {
    let count = match rng.below(10) {
        0..=5 => 1 + rng.below(3),
        6..=8 => 1 + rng.below(16),
        _ => 16,
    };
    let first = if rng.chance(50) { 256 } else { 256 + 4 * rng.below(60) };
    let mut lengths = vec![first];
    lengths.resize_with(count, || 4 * rng.below(if count > 3 { 12 } else { 60 }));
    lengths
}

/// The bytes of the header that no rule reads; 14 and 19 stand beside the fields of the revision.
const UNREAD: [usize; 11] = [2, 3, 8, 9, 10, 11, 14, 19, 20, 21, 22];

/// An image that fits the board, with some damage. The checksum is right unless that is damaged. Where the image is to have a digest,
/// that is drawn after the damage, but for what is done to the whole image.
fn random_image(
    rng: &mut Rng,
    board: Board,
    mut lengths: Vec<usize>,
    flag: bool,
    digest: Digest,
    damages: &[Damage],
) -> Vec<u8> {
    if damages.contains(&ShortFirstSegment) {
        lengths[0] = rng.pick(&[0, 4, 128, 248, 252]);
    }
    let segments = random_segments(rng, board.chip_id, &lengths, damages);
    let mut image = build_image(board.chip_id, rng.word(), &segments, flag);
    UNREAD.into_iter().for_each(|place| image[place] = rng.word() as u8);
    let [minimum, maximum] = random_limits(rng, board.revision, damages);
    put_limits(&mut image, minimum, maximum);
    let (last, first): (Vec<Damage>, Vec<Damage>) = damages.iter().partition(|damage| damage.comes_last());
    first.into_iter().for_each(|damage| apply(rng, &mut image, &lengths, damage));
    draw_digest(rng, &mut image, &lengths, flag, digest);
    last.into_iter().for_each(|damage| apply(rng, &mut image, &lengths, damage));
    image
}

/// Makes the change that comes with a digest and, where the image has room for it, the digest.
fn draw_digest(rng: &mut Rng, image: &mut [u8], lengths: &[usize], flag: bool, digest: Digest) {
    let end = header_of(lengths, lengths.len());
    let (hashed, room) = image.split_at_mut(padded_end(end));
    if let Digest::After(change) = digest {
        make_unseen(rng, hashed, lengths, change);
    }
    if flag {
        room.copy_from_slice(&digest_bytes(rng, hashed, end, digest));
    }
    if let Digest::Before(change) = digest {
        make_unseen(rng, hashed, lengths, change);
    }
}

/// The 32 bytes of a digest of bytes whose padding begins at `end`.
fn digest_bytes(rng: &mut Rng, hashed: &[u8], end: usize, digest: Digest) -> [u8; DIGEST_SIZE] {
    let mut bytes = match digest {
        Digest::UpToTheEnd => sha256::digest(&hashed[..end]),
        Digest::UpToTheChecksum => sha256::digest(&hashed[..hashed.len() - 1]),
        _ => sha256::digest(hashed),
    };
    match digest {
        Digest::OneByte(byte) => bytes[byte] ^= 1 << rng.below(8),
        Digest::TwoBytes => flip_in_two(rng, DIGEST_SIZE, |byte, bit| bytes[byte] ^= bit),
        Digest::AnyBytes => rng.fill(&mut bytes),
        Digest::WordsReversed => bytes.chunks_exact_mut(4).for_each(<[u8]>::reverse),
        _ => {}
    }
    bytes
}

/// Flips the same bit of two of `count` bytes.
fn flip_in_two(rng: &mut Rng, count: usize, mut flip: impl FnMut(usize, u8)) {
    let (first, more, bit) = (rng.below(count), 1 + rng.below(count - 1), 1 << rng.below(8));
    flip(first, bit);
    flip((first + more) % count, bit);
}

/// Makes a change that only the digest shows. Where there is too little data for one of it, the header is changed.
fn make_unseen(rng: &mut Rng, image: &mut [u8], lengths: &[usize], change: Unseen) {
    let end = header_of(lengths, lengths.len());
    // The descriptor's word and the version are read.
    let data: usize = lengths.iter().sum::<usize>().saturating_sub(8);
    match change {
        Unseen::TwoDataBits if data > 1 => {
            flip_in_two(rng, data, |byte, bit| image[data_place(lengths, 8 + byte)] ^= bit)
        }
        Unseen::Padding => {
            let padding = &mut image[end..padded_end(end) - 1];
            if rng.chance(50) {
                rng.fill(padding);
            }
            padding[rng.below(padding.len())] = 1 + rng.below(255) as u8;
        }
        Unseen::TwoDataBits | Unseen::Header => {
            let place = match rng.below(4) {
                0 => 4 + rng.below(4),
                1 => header_of(lengths, rng.below(lengths.len())) + rng.below(4),
                _ => rng.pick(&UNREAD),
            };
            image[place] ^= 1 << rng.below(8);
        }
    }
}

/// The place of a byte of data, counted over all segments.
fn data_place(lengths: &[usize], mut byte: usize) -> usize {
    let mut number = 0;
    while byte >= lengths[number] {
        byte -= lengths[number];
        number += 1;
    }
    header_of(lengths, number) + SEGMENT_HEADER_SIZE + byte
}

/// The place of a segment's header, or of the end of the last segment.
fn header_of(lengths: &[usize], number: usize) -> usize {
    HEADER_SIZE + lengths[..number].iter().map(|length| SEGMENT_HEADER_SIZE + length).sum::<usize>()
}

/// The data of the segments, with the descriptor at the front of the first.
fn random_segments(rng: &mut Rng, chip_id: u16, lengths: &[usize], damages: &[Damage]) -> Vec<Vec<u8>> {
    let version = if damages.contains(&Version) { version_too_high(rng, chip_id) } else { version(rng, chip_id) };
    let mut segments: Vec<Vec<u8>> = lengths.iter().map(|length| vec![0; *length]).collect();
    if rng.chance(70) {
        segments.iter_mut().for_each(|data| rng.fill(data));
    }
    let mut descriptor = [DESCRIPTOR_WORD.to_le_bytes(), version.to_le_bytes()].concat();
    if damages.contains(&Descriptor) {
        descriptor[rng.below(4)] ^= 1 << rng.below(8);
    }
    if let Some(start) = segments[0].get_mut(..8) {
        start.copy_from_slice(&descriptor);
    }
    segments
}

/// Does what is wrong to an image of segments of these lengths.
fn apply(rng: &mut Rng, image: &mut Vec<u8>, lengths: &[usize], damage: Damage) {
    let end = header_of(lengths, lengths.len());
    match damage {
        Magic => image[0] = rng.pick(&[0, 0xE8, 0xFF, 0x69]),
        NoSegments => image[1] = 0,
        ManySegments => image[1] = rng.pick(&[17, 18, 32, 128, 255]),
        OneMoreSegment => image[1] += 1,
        Chip => image[12 + rng.below(2)] ^= 1 << rng.below(8),
        DigestFlag => image[FLAG_PLACE] = rng.pick(&[2, 3, 0x80, 0xFF]),
        SegmentLength | SegmentPassesTheEnd => {
            let number = rng.below(lengths.len());
            let place = header_of(lengths, number) + 4;
            let length = if damage == SegmentLength {
                lengths[number] as u32 + rng.pick(&[1, 2, 3, 5, 0x8000_0002, 0_u32.wrapping_sub(2)])
            } else {
                let room = (image.len() - place) as u32 & !3;
                rng.pick(&[room, room + 4, 0x7FFF_FFFC, 0x8000_0000, 0xFFFF_FFF0, 0xFFFF_FFFC])
            };
            image[place..place + 4].copy_from_slice(&length.to_le_bytes());
        }
        Checksum => image[padded_end(end) - 1] ^= 1 << rng.below(8),
        AnyByte => {
            let place = rng.below(image.len());
            image[place] ^= 1 << rng.below(8);
        }
        CutNearTheEnd => {
            let cut = 1 + rng.below(image.len() - end);
            image.truncate(image.len().saturating_sub(cut));
        }
        CutAnywhere => image.truncate(rng.below(image.len() + 1)),
        CutBelow288 => image.truncate(rng.pick(&[0, 1, 23, 24, 31, 32, 40, 286, 287])),
        // Done while the image was built.
        BelowMinimum | AboveMaximum | ShortFirstSegment | Descriptor | Version => {}
    }
}

/// An image for the image check alone, and the board to check it for.
pub fn lone_image(rng: &mut Rng) -> (Vec<u8>, Board) {
    let board = board(rng);
    let mut lengths = segment_lengths(rng);
    if rng.chance(1) {
        lengths[0] += 4 * rng.below(50_000);
    }
    let mut damages: Vec<Damage> = (0..rng.pick(&[0, 0, 0, 1, 1, 1, 1, 1, 2, 3]))
        .map(|_| if rng.chance(25) { rng.pick(&CUTS) } else { rng.pick(&IN_PLACE) })
        .collect();
    if rng.chance(10) {
        damages.extend(rng.pick(&[&[BelowMinimum][..], &[AboveMaximum], &[BelowMinimum, AboveMaximum]]));
    }
    let (flag, digest) = (rng.chance(50), rng.pick(&Digest::RIGHT));
    let mut image = random_image(rng, board, lengths, flag, digest, &sorted(damages));
    add_tail(rng, &mut image);
    (image, board)
}

/// Now and then bytes after an image.
fn add_tail(rng: &mut Rng, image: &mut Vec<u8>) {
    if rng.chance(30) {
        let mut more = vec![0xFF; rng.below(64)];
        if rng.chance(50) {
            rng.fill(&mut more);
        }
        image.extend(more);
    }
}

/// An image that is drawn for its digest.
pub struct DrawnImage {
    pub image: Vec<u8>,
    pub board: Board,
    pub digest: Digest,
    /// Where it is off, the 32 bytes are none of the image's.
    pub flag: bool,
    /// Whether there is damage besides.
    pub damaged: bool,
}

pub fn drawn_image(rng: &mut Rng) -> DrawnImage {
    let board = board(rng);
    let mut lengths = segment_lengths(rng);
    if rng.below(200) == 0 {
        lengths[0] += 4 * rng.below(50_000);
    }
    let digest = if rng.chance(25) { rng.pick(&Digest::RIGHT) } else { rng.pick(&Digest::wrong()) };
    let flag = rng.chance(80);
    let damage = match rng.below(10) {
        0..=2 => Some(rng.pick(&IN_PLACE)).filter(|damage| flag && *damage != AnyByte),
        3 => Some(rng.pick(&CUTS)).filter(|_| flag),
        _ => None,
    };
    let mut image = random_image(rng, board, lengths, true, digest, damage.as_slice());
    if !flag {
        image[FLAG_PLACE] = 0;
    }
    add_tail(rng, &mut image);
    DrawnImage { image, board, digest, flag, damaged: damage.is_some() }
}

/// Each damage once, cuts last.
fn sorted(mut damages: Vec<Damage>) -> Vec<Damage> {
    damages.sort_by_key(|damage| *damage as u32);
    damages.dedup();
    damages
}

/// An image for a slot of `size` bytes; now and then one that ends with the slot or passes its end.
fn slot_image(rng: &mut Rng, board: Board, size: usize, good: bool) -> Vec<u8> {
    let mut lengths = segment_lengths(rng);
    let (mut flag, mut digest) = (rng.chance(50), rng.pick(&Digest::RIGHT));
    let mut damages = Vec::new();
    if !good && rng.chance(15) {
        damages.push(rng.pick(&[BelowMinimum, AboveMaximum]));
    } else if !good && rng.chance(20) {
        (flag, digest) = (true, rng.pick(&Digest::wrong()));
    } else if !good {
        damages.extend((0..rng.pick(&[1, 1, 1, 2])).map(|_| rng.pick(&IN_PLACE)));
    }
    if rng.chance(4) && size <= 8 * PAGE {
        // The end e falls so many bytes from the end of the slot.
        let before = if good { rng.pick(&[36, 48]) } else { rng.pick(&[0, 4, 12, 16, 20, 28, 32]) };
        let end = header_of(&lengths, lengths.len());
        if end + before < size {
            *lengths.last_mut().unwrap() += size - before - end;
            if !good && rng.chance(80) {
                damages.clear();
            }
        }
    }
    random_image(rng, board, lengths, flag, digest, &sorted(damages))
}

// Partition lists.

/// The ways in which a list breaks its rules.
#[derive(Clone, Copy, PartialEq, Eq, PartialOrd, Ord, Debug)]
pub enum Rule {
    BrokenTriple,
    FactoryTwice,
    SlotTwice,
    SlotMissing,
    NoSlot,
    OneSlot,
    SeventeenSlots,
    OtherSubtype,
    Offset,
    SizeZero,
    Size,
    Overlap,
    PassesTheEnd,
    Past32Bits,
    FlashTooLong,
}

impl Rule {
    pub const ALL: [Rule; 15] = [
        Rule::BrokenTriple,
        Rule::FactoryTwice,
        Rule::SlotTwice,
        Rule::SlotMissing,
        Rule::NoSlot,
        Rule::OneSlot,
        Rule::SeventeenSlots,
        Rule::OtherSubtype,
        Rule::Offset,
        Rule::SizeZero,
        Rule::Size,
        Rule::Overlap,
        Rule::PassesTheEnd,
        Rule::Past32Bits,
        Rule::FlashTooLong,
    ];
}

/// A partition list with the flash's length, and the rule that it breaks, if any.
#[derive(Clone, Debug)]
pub struct List {
    pub words: Vec<u32>,
    pub flash_len: usize,
    pub n: u32,
    pub broken: Option<Rule>,
}

/// A list of 2 to 17 slots, its entries in any order in the list and in the flash, that keeps all other rules.
fn any_list(rng: &mut Rng, factory: bool) -> List {
    let n = SLOTS_MIN + rng.below(SLOTS_MAX + 2 - SLOTS_MIN);
    let mut subtypes: Vec<u32> = (16..16 + n as u32).collect();
    if factory {
        subtypes.push(0);
    }
    rng.shuffle(&mut subtypes);
    let mut offset = rng.pick(&[0, BLOCK, 2 * BLOCK]);
    let mut entries = Vec::new();
    let mut end = 0;
    for subtype in subtypes {
        let pages = match rng.below(20) {
            0..=1 => 16,
            2 => 17 + rng.below(16),
            _ => 1 + rng.below(3),
        };
        entries.push([subtype, offset as u32, (pages * PAGE) as u32]);
        end = offset + pages * PAGE;
        offset = end.next_multiple_of(BLOCK) + if rng.chance(10) { BLOCK } else { 0 };
    }
    let mut flash_len = end + if rng.chance(50) { 0 } else { rng.below(2 * BLOCK) };
    if rng.chance(3) {
        // The last one ends where the longest flash does.
        let last = entries.last_mut().unwrap();
        last[1] = (FLASH_MAX - (last[2] as usize).next_multiple_of(BLOCK)) as u32;
        last[2] = FLASH_MAX as u32 - last[1];
        flash_len = FLASH_MAX;
    }
    rng.shuffle(&mut entries);
    let broken = (n > SLOTS_MAX).then_some(Rule::SeventeenSlots);
    List { words: entries.concat(), flash_len, n: n as u32, broken }
}

/// The list with one rule broken, the others kept where that can be. One of seventeen slots stays as it is.
fn break_list(rng: &mut Rng, list: List, rule: Rule) -> List {
    if list.broken.is_some() {
        return list;
    }
    let List { words, mut flash_len, mut n, .. } = list;
    let mut entries: Vec<[u32; 3]> = words.chunks(3).map(|entry| entry.try_into().unwrap()).collect();
    if flash_len > 8 << 20 {
        // Make room: the entry at the end of the longest flash goes.
        flash_len = 8 << 20;
        let last = entries.iter_mut().max_by_key(|entry| entry[1]).unwrap();
        *last = [last[0], (7 << 20) as u32, PAGE as u32];
    }
    let add = |entries: &mut Vec<[u32; 3]>, flash_len: &mut usize, subtype: u32| {
        let offset = flash_len.next_multiple_of(BLOCK);
        entries.push([subtype, offset as u32, PAGE as u32]);
        *flash_len = offset + PAGE;
    };
    let any = rng.below(entries.len());
    let mut extra = 0_isize;
    match rule {
        Rule::BrokenTriple => extra = rng.pick(&[-2, -1, 1, 2]),
        Rule::FactoryTwice => {
            while entries.iter().filter(|entry| entry[0] == 0).count() < 2 {
                add(&mut entries, &mut flash_len, 0);
            }
        }
        Rule::SlotTwice => add(&mut entries, &mut flash_len, 16 + rng.below(n as usize) as u32),
        Rule::SlotMissing => {
            let highest = 16 + n - 1;
            if rng.chance(50) {
                entries.iter_mut().filter(|entry| entry[0] == highest).for_each(|entry| entry[0] += 1);
            } else {
                let gone = 16 + rng.below(n as usize - 1) as u32;
                entries.retain(|entry| entry[0] != gone);
            }
        }
        Rule::NoSlot => entries.retain(|entry| entry[0] == 0),
        Rule::OneSlot => {
            let only = rng.pick(&[16, 17]);
            entries.retain(|entry| entry[0] == 0 || entry[0] == only);
        }
        Rule::SeventeenSlots => {
            (n..17).for_each(|slot| add(&mut entries, &mut flash_len, 16 + slot));
            n = 17;
        }
        Rule::OtherSubtype => {
            let subtype = rng.pick(&[1, 2, 15, 32, 33, 0x100, 0x110, 0x1_0000, 0x1_0010, 0x8000_0010, 0xFFFF_FFFF]);
            add(&mut entries, &mut flash_len, subtype);
        }
        Rule::Offset => {
            entries[any][1] += rng.pick(&[1, 0x100, 0x1000, 0x8000]);
            entries[any][2] = PAGE as u32;
            flash_len += PAGE;
        }
        Rule::SizeZero => entries[any][2] = 0,
        Rule::Size => {
            entries[any][2] = rng.pick(&[1, 32, 2048, 4095, 4097, 6144, 8191]);
            flash_len += PAGE;
        }
        Rule::Overlap => {
            let other = (any + 1 + rng.below(entries.len() - 1)) % entries.len();
            let (low, high) = if entries[any][1] < entries[other][1] { (any, other) } else { (other, any) };
            if rng.chance(50) {
                // The lower one reaches into the higher one, by a page or more.
                entries[low][2] = entries[high][1] - entries[low][1] + rng.pick(&[1, 1, 2]) * PAGE as u32;
                flash_len += PAGE;
            } else {
                entries[high][1] = entries[low][1];
            }
        }
        Rule::PassesTheEnd => {
            let end = entries.iter().map(|entry| (entry[1] + entry[2]) as usize).max().unwrap();
            flash_len = rng.pick(&[end - 1, end - PAGE, end / 2, 0]);
        }
        Rule::Past32Bits => {
            let (offset, size) =
                rng.pick(&[(0xFFFF_0000, 0x1_0000), (0xFFFF_0000, 0x2_0000), (0x100_0000, 0xFF00_1000)]);
            entries[any][1] = offset;
            entries[any][2] = size;
        }
        Rule::FlashTooLong => flash_len = FLASH_MAX + rng.pick(&[1, 2, PAGE, BLOCK]),
    }
    let mut words = entries.concat();
    if extra < 0 {
        words.truncate(words.len() - (-extra) as usize);
    } else {
        words.extend((0..extra).map(|_| 0));
    }
    List { words, flash_len, n, broken: Some(rule) }
}

/// A list for the list's check alone; its flash needn't exist.
pub fn lone_list(rng: &mut Rng) -> List {
    let factory = rng.chance(50);
    let mut list = any_list(rng, factory);
    match rng.below(10) {
        0..=2 => {}
        3..=7 => {
            let rule = rng.pick(&Rule::ALL);
            list = break_list(rng, list, rule);
            if list.broken == Some(Rule::FlashTooLong) && rng.chance(30) {
                list.flash_len = rng.pick(&[1 << 31, 1 << 32, (1 << 32) + (1 << 20), usize::MAX]);
            }
        }
        8 => {
            // One bit of one word; it may break no rule.
            list.broken = None;
            let place = rng.below(list.words.len());
            list.words[place] ^= 1 << rng.below(32);
        }
        _ => {
            // The words of an arbitrary list, from the ones that matter.
            list.broken = None;
            list.words = (0..3 * rng.below(6))
                .map(|_| rng.pick(&[0, 0x10, 0x11, 0x12, 0x1000, 0x2000, 0x1_0000, 0x2_0000, 0x3_0000, 0x1001]))
                .collect();
        }
    }
    list
}

// Nodes.

/// All that a call on a node is given.
#[derive(Clone)]
pub struct NodeCase {
    pub list: List,
    /// What the flash holds, by place; the rest is erased.
    pub images: Vec<(usize, Vec<u8>)>,
    pub otadata: Vec<u8>,
    pub settings: ffi::Settings,
    /// The slot of the marks and the query: most often one that a record names.
    pub slot: u32,
    /// The slot of set-boot.
    pub target: u32,
    /// The running slot of the next update slot; most often one, or factory.
    pub running: u32,
}

pub fn node(rng: &mut Rng) -> NodeCase {
    let factory = rng.chance(40);
    let settings = settings(rng, factory);
    let mut list = any_list(rng, factory);
    let n = list.n;

    let health = rng.pick(&[0, 20, 50, 70, 90, 100]);
    let mut images = Vec::new();
    for entry in list.words.chunks(3) {
        let (offset, size) = (entry[1] as usize, entry[2] as usize);
        let good = rng.chance(health);
        if !good && rng.chance(10) {
            continue;
        }
        let mut image = slot_image(rng, settings.board, size, good);
        image.truncate(list.flash_len - offset);
        images.push((offset, image));
    }

    let mut otadata = sectors(rng, n).concat();
    let slot = named_slot(rng, &otadata, n);
    let target = if rng.chance(20) { slot } else { any_slot(rng, n) };
    let running = if rng.chance(25) { ffi::RUNNING_FACTORY } else { any_slot(rng, n) };
    if rng.chance(4) {
        otadata.resize(wrong_length(rng, OTADATA_SIZE), 0xFF);
    }
    if rng.chance(5) {
        let rule = rng.pick(&Rule::ALL);
        list = break_list(rng, list, rule);
    }
    NodeCase { list, images, otadata, settings, slot, target, running }
}

fn settings(rng: &mut Rng, factory: bool) -> ffi::Settings {
    let on = |rng: &mut Rng| rng.pick(&[1, 1, 1, 2, 0x80, 0xFF]);
    let rollback = if rng.chance(65) { on(rng) } else { 0 };
    let refused = factory || rollback == 0;
    let anti_rollback = if rng.chance(if refused { 6 } else { 60 }) { on(rng) } else { 0 };
    ffi::Settings { board: board(rng), efuse: efuse(rng), rollback, anti_rollback }
}

/// A register: some of the lowest bits, few bits anywhere or any; now and then with ones in its upper half besides.
pub fn efuse(rng: &mut Rng) -> u32 {
    let register = match rng.below(10) {
        0..=4 => (1 << rng.below(5)) - 1,
        5..=7 => (0..rng.below(6)).fold(0, |register, _| register | 1 << rng.below(32)),
        8 => rng.word(),
        _ => rng.pick(&[0xFFFF_FFFF, 0xFFFF_FFFE, 0x7FFF_FFFF, 0x8000_0000, 0x0000_FFFF, 0x0000_7FFF, 0x0001_FFFF]),
    };
    let above = if rng.chance(30) { rng.pick(&[0xFFFF_0000, 0x0001_0000, 0x8000_0000]) } else { 0 };
    register | above
}

/// A slot that a record names, most often.
fn named_slot(rng: &mut Rng, otadata: &[u8], n: u32) -> u32 {
    let readings = sector::readings(otadata);
    let named = match rng.below(20) {
        0..=9 => sector::active(&readings).and_then(|number| readings[number]),
        10..=12 => readings[0],
        13..=15 => readings[1],
        _ => None,
    };
    named.map_or_else(|| any_slot(rng, n), |record| record.slot(n))
}

/// A slot, or now and then a number that isn't below n.
fn any_slot(rng: &mut Rng, n: u32) -> u32 {
    if rng.chance(85) {
        rng.below(n as usize) as u32
    } else {
        rng.pick(&[n, n + 1, 16, 17, 255, 256, 0x1_0000, 0x8000_0000, 0xFFFF_FFFE, 0xFFFF_FFFF])
    }
}
