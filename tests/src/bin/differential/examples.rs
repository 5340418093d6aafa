//! The examples of document 01, and those of document 02 with nine slots and more, of why a sector is empty, of sixteen version bits, of
//! replies with the image's length and entry address, of wrong revisions and of wrong digests, held on both sides: the model and the
//! library.

use crate::calls::{boot_out, mark_valid_out, plain, set_boot_out};
use ota_tests::boot::{self, App};
use ota_tests::ffi::{self, Node};
use ota_tests::generate::{
    add_digest, build_image, edit, limit_revisions, plain_image, plain_loadable, plain_node, plain_node_of,
    spoil_digest, two_sectors, LIMITS,
};
use ota_tests::image::Loadable;
use ota_tests::record::{self, State};
use ota_tests::refusal::number_of;
use ota_tests::rng::Rng;
use ota_tests::settings::Board;
use ota_tests::{image, partition, sector, settings, sha256, update};
use std::time::Instant;

const BOARD: Board = Board { chip_id: 0, revision: 301 };
const ROLLBACK: ffi::Settings = ffi::Settings { board: BOARD, efuse: 0, rollback: 1, anti_rollback: 0 };
const ANTI: ffi::Settings = ffi::Settings { anti_rollback: 1, ..ROLLBACK };

pub fn run() -> usize {
    let examples = [
        records,
        readings,
        set_boot_sequences,
        boot_through_sequence_4,
        boot_of_the_last_slot,
        next_slots,
        seventeen_slots,
        a_long_list_is_not_walked,
        registers,
        registers_of_sixteen_bits,
        versions,
        boots_by_version,
        marks_by_version,
        images,
        segment_lengths,
        checksums_of_every_length,
        boots_give_the_image,
        set_boots_give_the_image,
        marks_give_the_image,
        refused_boots,
        refused_set_boots,
        refused_marks,
        revisions,
        bytes_of_the_revisions,
        a_wrong_revision_beside_other_faults,
        boots_by_revision,
        set_boots_by_revision,
        marks_by_revision,
        fallbacks_by_revision,
        digests,
        bits_that_cancel,
        what_the_digest_is_of,
        a_wrong_digest_beside_other_faults,
        thirteen_segments,
        boots_by_digest,
        set_boots_by_digest,
        marks_by_digest,
        fallbacks_by_digest,
    ];
    examples.iter().for_each(|example| example());
    examples.len()
}

fn both<T: PartialEq + std::fmt::Debug>(library: T, model: T, expected: T) {
    assert_eq!(model, expected, "the model");
    assert_eq!(library, expected, "the library");
}

fn records() {
    both(ffi::check_word(1), record::check_word(1), 0x4743_989A);
    both(ffi::check_word(2), record::check_word(2), 0x55F6_3774);
    let mut words = [2, 1, 1];
    assert_eq!((ffi::check_words(&mut words), words), (0, [0x55F6_3774, 0x4743_989A, 0x4743_989A]));
    assert_eq!(ffi::check_words(&mut []), 0);
    let mut bytes = [0xFF; 32];
    bytes[..4].copy_from_slice(&[1, 0, 0, 0]);
    bytes[28..].copy_from_slice(&[0x9A, 0x98, 0x43, 0x47]);
    let mut made = [0; 32];
    assert_eq!(ffi::make_record(1, &[0xFF; 20], 0xFFFF_FFFF, &mut made), 0);
    both(Ok(made), record::make(1, &[0xFF; 20], 0xFFFF_FFFF), Ok(bytes));
}

/// The reading of a sector, erased after its record or not: number and three values.
fn read_both(record: &[u8; 32], expected: (u32, [u32; 3])) {
    for rest in [0xFF, 0x00] {
        let mut bytes = vec![rest; 4096];
        bytes[..32].copy_from_slice(record);
        read_sector_both(&bytes, expected);
    }
}

fn read_sector_both(bytes: &[u8], expected: (u32, [u32; 3])) {
    let mut out = [9; 3];
    let number = ffi::read_sector(bytes, &mut out);
    both((number, out), sector::read(bytes).answer(), expected);
}

/// The good record, and why a sector holds none: the first reason that applies.
fn readings() {
    const BLANK: (u32, [u32; 3]) = (0, [2, 0, 0]);
    const BAD_SEQUENCE: (u32, [u32; 3]) = (0, [3, 0, 0]);
    const BAD_CHECK: (u32, [u32; 3]) = (0, [4, 0, 0]);
    const BAD_STATE: (u32, [u32; 3]) = (0, [5, 0, 0]);
    const WRONG_SIZE: (u32, [u32; 3]) = (2, [0, 0, 0]);

    let first = made(1, State::Undefined).unwrap();
    read_both(&first, (0, [1, 1, 0xFFFF_FFFF]));
    read_both(&made(4_294_967_294, State::Aborted).unwrap(), (0, [1, 4_294_967_294, 4]));
    // Blank, and one bit less: of the sequence, then elsewhere.
    read_both(&[0xFF; 32], BLANK);
    for bit in 0..256 {
        let mut bytes = [0xFF; 32];
        bytes[bit / 8] ^= 1 << (bit % 8);
        read_both(&bytes, if bit < 32 { BAD_CHECK } else { BAD_SEQUENCE });
    }
    read_both(&[0; 32], BAD_SEQUENCE);
    // Sequence, check word and state, each right or wrong.
    for (sequence, check, state, expected) in [
        (0, 0, 2, BAD_SEQUENCE),
        (0, 1, 2, BAD_SEQUENCE),
        (0, 0, 5, BAD_SEQUENCE),
        (0, 1, 5, BAD_SEQUENCE),
        (0xFFFF_FFFF, 0, 2, BAD_SEQUENCE),
        (0xFFFF_FFFF, 1, 2, BAD_SEQUENCE),
        (0xFFFF_FFFF, 0, 5, BAD_SEQUENCE),
        (0xFFFF_FFFF, 1, 5, BAD_SEQUENCE),
        (7, 1, 2, BAD_CHECK),
        (7, 1, 5, BAD_CHECK),
        (7, 0, 5, BAD_STATE),
        (7, 0, 2, (0, [1, 7, 2])),
    ] {
        let mut bytes = record::raw_bytes(sequence, &[0xFF; 20], state);
        bytes[28] ^= check;
        read_both(&bytes, expected);
    }
    // The size is tested before all.
    for record in [first, [0xFF; 32], [0; 32]] {
        for length in [0, 31, 32, 33, 4095, 4097, 8192] {
            let mut bytes = record.to_vec();
            bytes.resize(length, 0xFF);
            read_sector_both(&bytes, WRONG_SIZE);
        }
    }
}

fn set_boot_sequences() {
    let highest = 4_294_967_294;
    let cases = [
        (2, 5, 1, Ok(6)),
        (3, 4, 2, Ok(6)),
        (2, highest - 1, 1, Ok(highest)),
        (2, highest, 0, Err(7)),
        // From the last slot to slot 0, and back.
        (9, 9, 0, Ok(10)),
        (9, 10, 8, Ok(18)),
        (16, 16, 0, Ok(17)),
        (16, 17, 15, Ok(32)),
        // The highest sequence names slot 13 of sixteen.
        (16, highest - 15, 13, Ok(highest)),
        (16, highest - 14, 14, Err(7)),
    ];
    for (n, active, slot, expected) in cases {
        let (list, flash) = plain_node(&vec![Some(1); n], None);
        let before = two_sectors(made(active, State::Valid), None);
        let Loadable { length, entry } = plain_loadable(slot as usize);
        let (reply, left) = match expected {
            Ok(sequence) => {
                ((0, [0, 0, length, entry.into()]), two_sectors(made(active, State::Valid), made(sequence, State::New)))
            }
            Err(number) => ((number, [0; 4]), before.clone()),
        };
        assert_eq!(set_boot_both(&list, &flash, &before, ROLLBACK, slot, reply), left);
    }
}

/// A boot on both sides, with this number and `out`. Gives otadata as both leave it.
fn boot_both(
    list: &[u32],
    flash: &[u8],
    otadata: &[u8],
    settings: ffi::Settings,
    expected: (u32, [u32; 6]),
) -> Vec<u8> {
    let (mut library, mut model, mut out) = (otadata.to_vec(), otadata.to_vec(), [9; 6]);
    let number = ffi::boot(Node { list, flash, otadata: &mut library }, settings, &mut out);
    let reply = boot::boot(list, flash, &mut model, &plain(settings));
    both((number, out), (number_of(&reply), boot_out(&reply, &plain(settings))), expected);
    assert_eq!(library, model);
    library
}

/// The same of a set-boot.
fn set_boot_both(
    list: &[u32],
    flash: &[u8],
    otadata: &[u8],
    settings: ffi::Settings,
    slot: u32,
    expected: (u32, [u64; 4]),
) -> Vec<u8> {
    let (mut library, mut model, mut out) = (otadata.to_vec(), otadata.to_vec(), [9; 4]);
    let number = ffi::set_boot(Node { list, flash, otadata: &mut library }, settings, slot, &mut out);
    let reply = update::set_boot(list, flash, &mut model, &plain(settings), slot);
    both((number, out), (number_of(&reply), set_boot_out(&reply)), expected);
    assert_eq!(library, model);
    library
}

/// The same of a mark-valid.
fn mark_valid_both(
    list: &[u32],
    flash: &[u8],
    otadata: &[u8],
    settings: ffi::Settings,
    slot: u32,
    expected: (u32, [u64; 5]),
) -> Vec<u8> {
    let (mut library, mut model, mut out) = (otadata.to_vec(), otadata.to_vec(), [9; 5]);
    let number = ffi::mark_valid(Node { list, flash, otadata: &mut library }, settings, slot, &mut out);
    let reply = update::mark_valid(list, flash, &mut model, &plain(settings), slot);
    both((number, out), (number_of(&reply), mark_valid_out(&reply, &plain(settings))), expected);
    assert_eq!(library, model);
    library
}

/// A boot that starts a slot, on both sides, and leaves otadata as it is.
fn starts(list: &[u32], flash: &[u8], otadata: Vec<u8>, slot: u32, sector: Option<usize>) {
    let Loadable { length, entry } = plain_loadable(slot as usize);
    let out = [2, slot, sector.unwrap_or(2) as u32, 0, length as u32, entry];
    assert_eq!(boot_both(list, flash, &otadata, ROLLBACK, (0, out)), otadata);
}

fn made(sequence: u32, state: State) -> Option<[u8; 32]> {
    record::make(sequence, &[0xFF; 20], state.word()).ok()
}

fn boot_through_sequence_4() {
    let (list, flash) = plain_node(&[None, Some(1)], None);
    starts(&list, &flash, two_sectors(made(4, State::Valid), made(5, State::Aborted)), 1, Some(0));
}

/// Slot 8 of nine and slot 15 of sixteen: through a record in either sector, and found by the last search.
fn boot_of_the_last_slot() {
    for n in [9, 16] {
        let last = n - 1;
        let (list, flash) = plain_node(&vec![Some(1); n as usize], None);
        for sequence in [n, 2 * n, 100 * n] {
            let (lower, active) = (made(sequence - 1, State::Valid), made(sequence, State::Valid));
            starts(&list, &flash, two_sectors(active, lower), last, Some(0));
            starts(&list, &flash, two_sectors(lower, active), last, Some(1));
        }
        let mut slots = vec![None; n as usize];
        slots[last as usize] = Some(1);
        let (list, flash) = plain_node(&slots, None);
        starts(&list, &flash, two_sectors(None, None), last, None);
        starts(&list, &flash, two_sectors(made(1, State::Invalid), made(last, State::Aborted)), last, None);
        starts(&list, &flash, two_sectors(made(1, State::Valid), made(2 * n, State::Valid)), last, Some(1));
    }
}

fn next_slots() {
    for n in [9, 16] {
        let (list, flash) = plain_node(&vec![Some(1); n as usize], Some(1));
        let mut otadata = two_sectors(None, None);
        let running = [(App::Slot(0), 1), (App::Slot(n - 2), n - 1), (App::Slot(n - 1), 0), (App::Factory, 0)];
        for (app, expected) in running {
            let mut out = [9];
            let number = match app {
                App::Factory => ffi::RUNNING_FACTORY,
                App::Slot(slot) => slot,
            };
            let node = Node { list: &list, flash: &flash, otadata: &mut otadata };
            assert_eq!(ffi::next_slot(node, ROLLBACK, number, &mut out), 0);
            let model = update::next_slot(&list, &flash, &otadata, &plain(ROLLBACK), app);
            both(Ok(out[0]), model, Ok(expected));
        }
    }
}

/// All calls with a list refuse it with 1 and leave otadata as it is, with and without factory; without the last slot they don't.
fn seventeen_slots() {
    for factory in [None, Some(1)] {
        let (list, flash) = plain_node(&[Some(1); 17], factory);
        let before = two_sectors(made(17, State::Pending), made(18, State::New));
        let mut otadata = before.clone();
        let mut on_node = |call: fn(Node) -> u32| call(Node { list: &list, flash: &flash, otadata: &mut otadata });
        let numbers = [
            ffi::check_list(&list, flash.len(), &mut [9; 2]),
            on_node(|node| ffi::boot(node, ROLLBACK, &mut [9; 6])),
            on_node(|node| ffi::set_boot(node, ROLLBACK, 0, &mut [9; 4])),
            on_node(|node| ffi::mark_valid(node, ROLLBACK, 16, &mut [9; 5])),
            on_node(|node| ffi::mark_invalid(node, ROLLBACK, 16)),
            on_node(|node| ffi::state_query(node, 16, &mut [9])),
            on_node(|node| ffi::next_slot(node, ROLLBACK, 16, &mut [9])),
        ];
        let settings = plain(ROLLBACK);
        let mut model = before.clone();
        let refused = [
            number_of(&partition::check(&list, flash.len())),
            number_of(&boot::boot(&list, &flash, &mut model, &settings)),
            number_of(&update::set_boot(&list, &flash, &mut model, &settings, 0)),
            number_of(&update::mark_valid(&list, &flash, &mut model, &settings, 16)),
            number_of(&update::mark_invalid(&list, &flash, &mut model, &settings, 16)),
            number_of(&update::state_query(&list, &flash, &model, 16)),
            number_of(&update::next_slot(&list, &flash, &model, &settings, App::Slot(16))),
        ];
        both(numbers, refused, [1; 7]);
        both(otadata, model, before);
        let (list, flash) = plain_node(&[Some(1); 16], factory);
        assert_eq!(ffi::check_list(&list, flash.len(), &mut [9; 2]), 0);
    }
}

/// A list 200,000 times as long as the longest that can be right is refused in less time than a thousand checks of that one take.
fn a_long_list_is_not_walked() {
    let (list, flash) = plain_node(&[Some(1); 16], Some(1));
    let long = list.repeat(200_000);
    let time = |list: &[u32], repeats: u32, number: u32| {
        let start = Instant::now();
        (0..repeats).for_each(|_| assert_eq!(ffi::check_list(list, flash.len(), &mut [9; 2]), number));
        start.elapsed()
    };
    let baseline = time(&list, 1_000, 0);
    let least = (0..5).map(|_| time(&long, 1, 1)).min().unwrap();
    assert!(least < baseline, "{least:?} for a long list, {baseline:?} for a thousand of 51 words");
}

fn raise_both(chip_id: u16, register: u32, version: u32, raised: u32) {
    let library = ffi::efuse_raise(chip_id, register, version);
    both(library, settings::efuse_raise(chip_id, register, version), raised);
}

fn registers() {
    for (version, raised) in [(3, 0x0B), (4, 0x0F), (5, 0x1F), (17, 0x1_FFFF), (32, !0), (33, !0)] {
        raise_both(0, 0x0B, version, raised);
    }
    both(ffi::efuse_version(0, 0xFFFF_0000), settings::efuse_version(0, 0xFFFF_0000), 16);
}

/// On every chip but 0 the sixteen lowest bits count, and no other is set or cleared.
fn registers_of_sixteen_bits() {
    for chip_id in [1, 2, 5, 9, 13, 16, 0x0100, 0x8000, 0xFFFF] {
        for (register, version) in
            [(0xFFFF_0000, 0), (0xFFFF_0001, 1), (0x0000_FFFF, 16), (0x0001_FFFF, 16), (!0, 16), (0x8000_8000, 1)]
        {
            both(ffi::efuse_version(chip_id, register), settings::efuse_version(chip_id, register), version);
        }
        raise_both(chip_id, 0x0000_FFFF, 17, 0x0000_FFFF);
        for (version, raised) in
            [(0, 0), (1, 1), (2, 3), (15, 0x7FFF), (16, 0xFFFF), (17, 0xFFFF), (32, 0xFFFF), (!0, 0xFFFF)]
        {
            raise_both(chip_id, 0, version, raised);
            raise_both(chip_id, 0xFFFF_0000, version, 0xFFFF_0000 | raised);
            raise_both(chip_id, 0x8001_0000, version, 0x8001_0000 | raised);
        }
    }
}

/// The highest version that a chip can hold is accepted, the next one refused with 29.
fn versions() {
    for (chip_id, highest) in [(0, 32), (5, 16), (16, 16), (0x0100, 16), (0xFFFF, 16)] {
        for version in [0, 1, 15, 16, 17, 31, 32, 33, 0x0001_0000, 0xFFFF_FFFF] {
            let expected = if version <= highest { (0, 304) } else { (29, 36) };
            check_both_for(Board { chip_id, ..BOARD }, &plain_image(chip_id, version, 256, false), expected);
        }
    }
}

/// An app of that version is below the eFuse version, or its image is refused.
const BELOW: Result<u32, u32> = Err(6);
const TOO_HIGH: Result<u32, u32> = Err(29);

/// A register raised to 16, 17 and 32, or why an app of that version doesn't pass.
type Raised = [Result<u32, u32>; 3];

/// A chip, a register, and that register raised.
const REGISTERS: [(u16, u32, Raised); 12] = [
    (0, 0, [Ok(0x0000_FFFF), Ok(0x0001_FFFF), Ok(!0)]),
    (0, 0x0000_FFFF, [Ok(0x0000_FFFF), Ok(0x0001_FFFF), Ok(!0)]),
    (0, 0xFFFF_0000, [Ok(0xFFFF_0000), Ok(0xFFFF_0001), Ok(!0)]),
    (0, 0xFFFF_0001, [BELOW, Ok(0xFFFF_0001), Ok(!0)]),
    (0, 0x7FFF_FFFF, [BELOW, BELOW, Ok(!0)]),
    (0, !0, [BELOW, BELOW, Ok(!0)]),
    (5, 0x0000_7FFF, [Ok(0x0000_FFFF), TOO_HIGH, TOO_HIGH]),
    (5, 0x8001_0000, [Ok(0x8001_FFFF), TOO_HIGH, TOO_HIGH]),
    (16, 0, [Ok(0x0000_FFFF), TOO_HIGH, TOO_HIGH]),
    (16, 0x0000_FFFF, [Ok(0x0000_FFFF), TOO_HIGH, TOO_HIGH]),
    (16, 0xFFFF_0000, [Ok(0xFFFF_FFFF), TOO_HIGH, TOO_HIGH]),
    (16, 0xFFFF_0100, [Ok(0xFFFF_FFFF), TOO_HIGH, TOO_HIGH]),
];

/// Calls with each chip and register, with anti-rollback, and each of versions 16, 17, 32 and 33.
fn by_version(call: impl Fn(ffi::Settings, u32, Result<u32, u32>)) {
    for (chip_id, efuse, raised) in REGISTERS {
        let settings = ffi::Settings { board: Board { chip_id, ..BOARD }, efuse, ..ANTI };
        for (version, raised) in [16, 17, 32].into_iter().zip(raised) {
            call(settings, version, raised);
        }
        call(settings, 33, TOO_HIGH);
    }
}

/// Through a record the register stays; the last search raises it, while no sector holds a good record.
fn boots_by_version() {
    by_version(|settings, version, raised| {
        let (list, flash) = plain_node_of(settings.board.chip_id, &[None, Some(version)], None);
        let kept = raised.and(Ok(settings.efuse));
        for (record, sector, register) in
            [(made(2, State::Valid), 0, kept), (made(1, State::Invalid), 2, kept), (None, 2, raised)]
        {
            let otadata = two_sectors(record, None);
            let expected = match register {
                Ok(register) => (0, [2, 1, sector, register, LENGTHS[1], ENTRIES[1]]),
                Err(_) => (10, [0, 0, 2, settings.efuse, 0, 0]),
            };
            assert_eq!(boot_both(&list, &flash, &otadata, settings, expected), otadata);
        }
    });
}

/// Mark-valid raises the register to the version of the running app; a version that the chip can't hold is refused with 5 and 29, one
/// below the eFuse version with 6, and the register comes back.
fn marks_by_version() {
    by_version(|settings, version, raised| {
        let (list, flash) = plain_node_of(settings.board.chip_id, &[None, Some(version)], None);
        let before = two_sectors(made(2, State::Pending), None);
        let expected = match raised {
            Ok(register) => (0, [register.into(), 0, 0, LENGTHS[1].into(), ENTRIES[1].into()]),
            TOO_HIGH => (5, [settings.efuse.into(), 29, 36, 0, 0]),
            Err(number) => (number, [settings.efuse.into(), 0, 0, 0, 0]),
        };
        let state = if raised.is_ok() { State::Valid } else { State::Pending };
        let left = mark_valid_both(&list, &flash, &before, settings, 1, expected);
        assert_eq!(left, two_sectors(made(2, state), None));
    });
}

/// The number, and the whole length or the place, for chip 0 of revision 301.
fn check_both(image: &[u8], expected: (u32, u64)) {
    check_both_for(BOARD, image, expected);
}

fn check_both_for(board: Board, image: &[u8], expected: (u32, u64)) {
    let mut out = [9; 4];
    let number = ffi::check_image(image, board, &mut out);
    let model = match image::check(image, board) {
        Ok(facts) => (0, facts.length),
        Err(refusal) => (refusal.number, refusal.place),
    };
    both((number, out[0]), model, expected);
}

fn images() {
    let mut image = plain_image(0, 1, 256, false);
    assert_eq!((image.len(), image[303]), (304, 0xEE));
    check_both(&image, (0, 304));
    image[303] = 0xEF;
    check_both(&image, (28, 303));
    check_both(&plain_image(0, 1, 256, true), (0, 336));

    // The end of source document 002: e = 0x89B7C.
    let mut image = plain_image(0, 1, 0x89B7C - 32, true);
    check_both(&image, (0, 564_128));
    image[0x89B7F] ^= 0x10;
    check_both(&image, (28, 0x89B7F));
}

fn segment_lengths() {
    for (length, expected) in [(254_u32, (25, 24)), (252, (26, 32)), (256, (0, 304))] {
        let mut image = plain_image(0, 1, 256, false);
        image[28..32].copy_from_slice(&length.to_le_bytes());
        check_both(&image, expected);
    }
}

/// A second segment of every length up to several blocks: each byte of it counts in the checksum.
fn checksums_of_every_length() {
    let mut rng = Rng::new(13);
    let mut first = vec![0; 256];
    first[..4].copy_from_slice(&image::DESCRIPTOR_WORD.to_le_bytes());
    for length in (0..=800).step_by(4) {
        let mut second = vec![0; length];
        rng.fill(&mut second);
        let mut image = build_image(0, 0, &[first.clone(), second], false);
        let whole = image.len() as u64;
        check_both(&image, (0, whole));
        for place in 296..296 + length {
            image[place] ^= 1 << (place % 8);
            check_both(&image, (28, whole - 1));
            image[place] ^= 1 << (place % 8);
        }
    }
}

/// The whole lengths and the entry addresses of the images of a plain node: slots 0 to 2, and factory after them. Those of slot 1 and of
/// factory have a digest.
const LENGTHS: [u32; 4] = [304, 352, 336, 384];
const ENTRIES: [u32; 4] = [0x4008_0000, 0x410A_0304, 0x420C_0608, 0x430E_090C];

fn valid(sequence: u32) -> Option<[u8; 32]> {
    made(sequence, State::Valid)
}

/// Through a record in either sector, the active or the other one; by factory; by the last search.
fn boots_give_the_image() {
    let with_factory = plain_node(&[Some(1), Some(1), None], Some(1));
    let without = plain_node(&[None, Some(3), Some(3)], None);
    let failed = made(2, State::Aborted);
    for ((list, flash), first, second, settings, [kind, slot, sector, register], place) in [
        (&with_factory, valid(2), valid(1), ROLLBACK, [2, 1, 0, 0], 1),
        (&with_factory, valid(1), valid(2), ROLLBACK, [2, 1, 1, 0], 1),
        (&with_factory, valid(4), valid(2), ROLLBACK, [2, 0, 0, 0], 0),
        (&with_factory, valid(3), valid(1), ROLLBACK, [2, 0, 1, 0], 0),
        (&with_factory, valid(2), valid(3), ROLLBACK, [2, 1, 0, 0], 1),
        (&with_factory, None, None, ROLLBACK, [1, 0, 2, 0], 3),
        (&with_factory, valid(3), None, ROLLBACK, [1, 0, 2, 0], 3),
        (&with_factory, failed, made(1, State::Invalid), ROLLBACK, [1, 0, 2, 0], 3),
        (&without, None, None, ROLLBACK, [2, 1, 2, 0], 1),
        (&without, None, None, ANTI, [2, 1, 2, 0b111], 1),
        (&without, failed, None, ANTI, [2, 2, 2, 0], 2),
        (&without, valid(1), None, ANTI, [2, 1, 2, 0], 1),
    ] {
        let otadata = two_sectors(first, second);
        let out = [kind, slot, sector, register, LENGTHS[place], ENTRIES[place]];
        assert_eq!(boot_both(list, flash, &otadata, settings, (0, out)), otadata);
    }
}

/// Where it writes, and where the active record names the slot already.
fn set_boots_give_the_image() {
    let (list, flash) = plain_node(&[Some(1), Some(1), Some(1)], Some(1));
    let new = |sequence| made(sequence, State::New);
    for (before, slot, after) in [
        ([None, None], 0, [new(1), None]),
        ([valid(1), None], 1, [valid(1), new(2)]),
        ([None, valid(1)], 2, [new(3), valid(1)]),
        ([valid(5), valid(4)], 0, [valid(5), new(7)]),
        ([valid(4), None], 0, [valid(4), None]),
        ([valid(1), valid(2)], 1, [valid(1), valid(2)]),
        ([valid(3), valid(2)], 2, [valid(3), valid(2)]),
    ] {
        let out = [0, 0, LENGTHS[slot].into(), ENTRIES[slot].into()];
        let [before, after] = [before, after].map(|[first, second]| two_sectors(first, second));
        assert_eq!(set_boot_both(&list, &flash, &before, ROLLBACK, slot as u32, (0, out)), after);
    }
}

/// Where it writes, and where the record was valid.
fn marks_give_the_image() {
    let (list, flash) = plain_node(&[Some(1), Some(2), Some(3)], None);
    for (record, slot, raised) in [
        (made(1, State::New), 0, 0b001),
        (made(2, State::Pending), 1, 0b011),
        (made(3, State::Undefined), 2, 0b111),
        (valid(4), 0, 0b001),
        (valid(5), 1, 0b011),
        (valid(6), 2, 0b111),
    ] {
        let marked = valid(record::word_at(&record.unwrap(), 0));
        for (settings, register) in [(ROLLBACK, 0), (ANTI, raised)] {
            let out = [register, 0, 0, LENGTHS[slot].into(), ENTRIES[slot].into()];
            let mark = |otadata: Vec<u8>| mark_valid_both(&list, &flash, &otadata, settings, slot as u32, (0, out));
            assert_eq!(mark(two_sectors(record, None)), two_sectors(marked, None));
            assert_eq!(mark(two_sectors(None, record)), two_sectors(None, marked));
        }
    }
}

/// Three slots, and the image in slot 2 has a wrong checksum.
fn damaged_node() -> (Vec<u32>, Vec<u8>) {
    let (list, mut flash) = plain_node(&[Some(3), Some(3), Some(3)], None);
    flash[2 * 0x1_0000 + 335] ^= 1;
    (list, flash)
}

const WITHOUT_ROLLBACK: ffi::Settings = ffi::Settings { rollback: 0, ..ANTI };
/// The eFuse version is above that of all apps.
const BURNED: ffi::Settings = ffi::Settings { efuse: 0b1111, ..ANTI };

/// Each refusal gives zero for length and entry address; 10 keeps the aborted mark.
fn refused_boots() {
    let (list, flash) = damaged_node();
    let (with_factory, _) = plain_node(&[Some(3), Some(3)], Some(3));
    let otadata = two_sectors(valid(1), made(2, State::Pending));
    let aborted = two_sectors(valid(1), made(2, State::Aborted));
    for (number, list, length, settings) in [
        (1, &list[..8], 8192, ROLLBACK),
        (2, &list, 8191, ROLLBACK),
        (3, &list, 8192, WITHOUT_ROLLBACK),
        (3, &with_factory, 8192, ANTI),
        (10, &list, 8192, BURNED),
    ] {
        let out = [0, 0, 2, settings.efuse, 0, 0];
        let left = boot_both(list, &flash, &otadata[..length], settings, (number, out));
        assert_eq!(left, if number == 10 { &aborted } else { &otadata }[..length]);
    }
}

/// Each refusal gives zero for length and entry address, also where the image was accepted before it.
fn refused_set_boots() {
    let (list, flash) = damaged_node();
    let otadata = two_sectors(valid(1), None);
    let pending = two_sectors(made(1, State::Pending), None);
    let highest = two_sectors(valid(4_294_967_294), None);
    for (number, list, otadata, settings, slot, image) in [
        (1, &list[..8], &otadata[..], ROLLBACK, 1, [0, 0]),
        (2, &list, &otadata[..8191], ROLLBACK, 1, [0, 0]),
        (3, &list, &otadata, WITHOUT_ROLLBACK, 1, [0, 0]),
        (4, &list, &otadata, ROLLBACK, 3, [0, 0]),
        (5, &list, &otadata, ROLLBACK, 2, [28, 335]),
        (6, &list, &otadata, BURNED, 1, [0, 0]),
        (6, &list, &otadata, BURNED, 0, [0, 0]),
        (11, &list, &pending, ROLLBACK, 1, [0, 0]),
        (11, &list, &pending, ROLLBACK, 0, [0, 0]),
        (7, &list, &highest, ROLLBACK, 0, [0, 0]),
    ] {
        let out = [image[0], image[1], 0, 0];
        assert_eq!(set_boot_both(list, &flash, otadata, settings, slot, (number, out)), otadata);
    }
}

/// The same, and the register comes back.
fn refused_marks() {
    let (list, flash) = damaged_node();
    let otadata = two_sectors(made(2, State::Pending), None);
    let damaged = two_sectors(made(3, State::Pending), None);
    for (number, list, otadata, settings, slot, image) in [
        (1, &list[..8], &otadata[..], ROLLBACK, 1, [0, 0]),
        (2, &list, &otadata[..8191], ROLLBACK, 1, [0, 0]),
        (3, &list, &otadata, WITHOUT_ROLLBACK, 1, [0, 0]),
        (4, &list, &otadata, ROLLBACK, 3, [0, 0]),
        (8, &list, &otadata, ROLLBACK, 0, [0, 0]),
        (5, &list, &damaged, ROLLBACK, 2, [28, 335]),
        (6, &list, &otadata, BURNED, 1, [0, 0]),
    ] {
        let out = [settings.efuse.into(), image[0], image[1], 0, 0];
        assert_eq!(mark_valid_both(list, &flash, otadata, settings, slot, (number, out)), otadata);
    }
}

/// What an image for other revisions gets.
const WRONG_REVISION: (u32, u64) = (31, 15);

fn with_revision(settings: ffi::Settings, revision: u16) -> ffi::Settings {
    ffi::Settings { board: Board { revision, ..settings.board }, ..settings }
}

/// Every revision with each of several minimums and maximums.
fn revisions() {
    for (minimum, maximum, fitting) in LIMITS {
        let mut image = plain_image(0, 1, 256, false);
        limit_revisions(&mut image, minimum, maximum);
        for revision in 0..=u16::MAX {
            let fits = fitting.is_some_and(|[first, last]| (first..=last).contains(&revision));
            let expected = if fits { (0, 304) } else { WRONG_REVISION };
            check_both_for(Board { revision, ..BOARD }, &image, expected);
        }
    }
}

/// The minimum is the bytes 15 and 16, the maximum 17 and 18, the lower byte first. Those beside them aren't read.
fn bytes_of_the_revisions() {
    for beside in [0, 1, 0x7F, 0xFF] {
        for (bytes, first, last) in [
            ([0x2C, 0x01, 0x90, 0x01], 300, 400),
            ([0x02, 0x01, 0x01, 0x02], 0x0102, 0x0201),
            ([0x00, 0x01, 0x00, 0x02], 0x0100, 0x0200),
            ([0x01, 0x00, 0x02, 0x00], 1, 2),
        ] {
            let mut image = plain_image(0, 1, 256, false);
            (image[14], image[19]) = (beside, beside);
            image[15..19].copy_from_slice(&bytes);
            for (revision, expected) in
                [(first, (0, 304)), (last, (0, 304)), (first - 1, WRONG_REVISION), (last + 1, WRONG_REVISION)]
            {
                check_both_for(Board { revision, ..BOARD }, &image, expected);
            }
        }
    }
}

/// 20 to 23 come before 31, and 31 before 24 to 29.
fn a_wrong_revision_beside_other_faults() {
    let good = plain_image(0, 33, 256, false);
    let fault = |place: usize, bits: u8| {
        let mut image = good.clone();
        image[place] ^= bits;
        image
    };
    for (mut image, number) in [
        (good[..287].to_vec(), 20),
        (fault(0, 1), 21),
        (fault(1, 0x10), 22),
        (fault(1, 1), 22),
        (fault(12, 1), 23),
        (fault(13, 1), 23),
        (fault(23, 2), 24),
        (fault(28, 2), 25),
        (fault(32, 1), 26),
        (good[..303].to_vec(), 27),
        (fault(303, 1), 28),
        (good.clone(), 29),
    ] {
        let refused = image::check(&image, BOARD).unwrap_err();
        assert_eq!(refused.number, number);
        let expected = if number <= 23 { (number, refused.place) } else { WRONG_REVISION };
        for (minimum, maximum) in [(302, 0), (0, 300), (302, 300)] {
            limit_revisions(&mut image, minimum, maximum);
            check_both(&image, expected);
        }
    }
}

/// Three slots and factory, of which slot 2 runs from revision 303 on, slot 1 from 302, factory from 301 and slot 0 from 300.
fn limited_node() -> (Vec<u32>, Vec<u8>) {
    let (list, mut flash) = plain_node(&[Some(1); 3], Some(1));
    for (block, minimum) in [300, 302, 303, 301].into_iter().enumerate() {
        limit_revisions(&mut flash[block * 0x1_0000..], minimum, 65_535);
    }
    (list, flash)
}

/// In each of the four ways an app that doesn't fit is passed over; the new record of one stays new.
fn boots_by_revision() {
    let (list, flash) = limited_node();
    for (revision, state, [kind, slot, sector], place) in [
        (303, State::Pending, [2, 2, 1], 2),
        (302, State::New, [2, 1, 0], 1),
        (301, State::New, [1, 0, 2], 3),
        (300, State::New, [2, 0, 2], 0),
    ] {
        let otadata = two_sectors(valid(2), made(3, State::New));
        let out = [kind, slot, sector, 0, LENGTHS[place], ENTRIES[place]];
        let left = boot_both(&list, &flash, &otadata, with_revision(ROLLBACK, revision), (0, out));
        assert_eq!(left, two_sectors(valid(2), made(3, state)));
    }
    let otadata = two_sectors(valid(2), made(3, State::New));
    let nothing = (10, [0, 0, 2, 0, 0, 0]);
    assert_eq!(boot_both(&list, &flash, &otadata, with_revision(ROLLBACK, 299), nothing), otadata);
}

/// Number 5 with image number 31, also for the slot that the active record names.
fn set_boots_by_revision() {
    let (list, flash) = limited_node();
    let otadata = two_sectors(valid(2), None);
    for (slot, minimum) in [(0, 300), (1, 302), (2, 303)] {
        let fits = (0, [0, 0, LENGTHS[slot].into(), ENTRIES[slot].into()]);
        let set = |revision, expected| {
            set_boot_both(&list, &flash, &otadata, with_revision(ROLLBACK, revision), slot as u32, expected)
        };
        assert_eq!(set(minimum - 1, (5, [31, 15, 0, 0])), otadata);
        assert_eq!(set(minimum, fits) == otadata, slot == 1);
    }
}

fn marks_by_revision() {
    let (list, flash) = limited_node();
    for (slot, minimum) in [(0, 300), (1, 302), (2, 303)] {
        let sequence = slot as u32 + 1;
        let otadata = two_sectors(made(sequence, State::Pending), None);
        let fits = (0, [0, 0, 0, LENGTHS[slot].into(), ENTRIES[slot].into()]);
        let mark = |revision, expected| {
            mark_valid_both(&list, &flash, &otadata, with_revision(ROLLBACK, revision), slot as u32, expected)
        };
        assert_eq!(mark(minimum - 1, (5, [0, 31, 15, 0, 0])), otadata);
        assert_eq!(mark(minimum, fits), two_sectors(valid(sequence), None));
    }
}

/// Slot 2 is given up, on a revision that its own app doesn't fit too: slot 1, factory or slot 0 is there to fall back to, or none.
fn fallbacks_by_revision() {
    let (list, flash) = limited_node();
    let before = two_sectors(valid(2), valid(3));
    for revision in [299, 300, 301, 302, 303, 304] {
        let settings = with_revision(ROLLBACK, revision);
        let (mut library, mut model) = (before.clone(), before.clone());
        let number = ffi::mark_invalid(Node { list: &list, flash: &flash, otadata: &mut library }, settings, 2);
        let reply = update::mark_invalid(&list, &flash, &mut model, &plain(settings), 2);
        both(number, number_of(&reply), if revision < 300 { 9 } else { 0 });
        let state = if revision < 300 { State::Valid } else { State::Invalid };
        both(library, model, two_sectors(valid(2), made(3, state)));
    }
}

/// What the smallest image gets with a right digest, with a wrong one, and without a digest.
const RIGHT_DIGEST: (u32, u64) = (0, 336);
const WRONG_DIGEST: (u32, u64) = (30, 304);
const NO_DIGEST: (u32, u64) = (0, 304);

/// The digest of the smallest image, by another program.
#[rustfmt::skip]
const SMALLEST: [u8; 32] = [
    0xF4, 0x0B, 0x6A, 0x38, 0x68, 0x78, 0xED, 0x62, 0xDC, 0x45, 0x24, 0x4F, 0x99, 0x17, 0x7A, 0xDE,
    0x9E, 0x22, 0xEF, 0xDC, 0x47, 0x2B, 0x51, 0xCF, 0xF6, 0x3D, 0x27, 0x87, 0xF1, 0x50, 0xBE, 0x41,
];

/// Right, and with each bit of each byte flipped.
fn digests() {
    let image = plain_image(0, 1, 256, true);
    assert_eq!(image[304..], SMALLEST);
    check_both(&image, RIGHT_DIGEST);
    for bit in 0..256 {
        let mut wrong = image.clone();
        wrong[304 + bit / 8] ^= 1 << (bit % 8);
        check_both(&wrong, WRONG_DIGEST);
    }
    for bytes in [[0; 32], [0xFF; 32], [0xD1; 32]] {
        check_both(&[&image[..304], &bytes].concat(), WRONG_DIGEST);
    }
}

/// Two flipped bits of data: the xor stays the same, the digest doesn't.
fn bits_that_cancel() {
    for (digest, right, wrong) in [(false, NO_DIGEST, NO_DIGEST), (true, RIGHT_DIGEST, WRONG_DIGEST)] {
        let image = plain_image(0, 1, 256, digest);
        check_both(&image, right);
        for (first, second, bit) in [(40, 287, 0), (40, 41, 7), (63, 64, 3), (127, 128, 4), (100, 200, 1)] {
            let mut changed = image.clone();
            changed[first] ^= 1 << bit;
            changed[second] ^= 1 << bit;
            check_both(&changed, wrong);
        }
    }
}

/// All bytes before it, also those that no other test reads, and none after it.
fn what_the_digest_is_of() {
    let image = plain_image(0, 1, 256, true);
    let header = [2, 3, 4, 5, 6, 7, 8, 9, 10, 11, 14, 19, 20, 21, 22];
    for place in header.into_iter().chain(24..28).chain(288..303) {
        let [mut with_its_own, mut with_the_old, mut without] = [image.clone(), image.clone(), image.clone()];
        edit(&mut with_its_own, |image| image[place] ^= 0x81);
        check_both(&with_its_own, RIGHT_DIGEST);
        with_the_old[place] ^= 0x81;
        check_both(&with_the_old, WRONG_DIGEST);
        without[23] = 0;
        without[place] ^= 0x81;
        check_both(&without, NO_DIGEST);
    }
    // Of fewer bytes than all before it: to the end of the segment, and to the checksum.
    for end in [0, 288, 303] {
        check_both(&[&image[..304], &sha256::digest(&image[..end])].concat(), WRONG_DIGEST);
    }
    for tail in [&[0][..], &[0xFF; 32], &SMALLEST] {
        check_both(&[&image[..], tail].concat(), RIGHT_DIGEST);
        check_both(&[&image[..304], &SMALLEST[..31], &[!SMALLEST[31]], tail].concat(), WRONG_DIGEST);
    }
}

/// Every other number comes before 30, beside a wrong digest and beside one that is right for the bytes.
fn a_wrong_digest_beside_other_faults() {
    let good = plain_image(0, 1, 256, true);
    let fault = |place: usize, bits: u8| {
        let mut image = good.clone();
        image[place] ^= bits;
        image
    };
    let mut too_new = plain_image(0, 33, 256, true);
    spoil_digest(&mut too_new);
    for (mut image, expected) in [
        (good[..287].to_vec(), (20, 0)),
        (fault(0, 1), (21, 0)),
        (fault(1, 1), (22, 1)),
        (fault(1, 0x10), (22, 1)),
        (fault(12, 1), (23, 12)),
        (fault(13, 1), (23, 12)),
        (fault(16, 2), WRONG_REVISION),
        (fault(17, 2), WRONG_REVISION),
        (fault(23, 2), (24, 23)),
        (fault(28, 2), (25, 24)),
        (fault(32, 1), (26, 32)),
        (good[..303].to_vec(), (27, 288)),
        (good[..304].to_vec(), (27, 288)),
        (fault(300, 1)[..335].to_vec(), (27, 288)),
        (fault(303, 1), (28, 303)),
        (fault(40, 1), (28, 303)),
        (too_new, (29, 36)),
    ] {
        check_both(&image, expected);
        if image.len() == 336 {
            let digest = sha256::digest(&image[..304]);
            image[304..].copy_from_slice(&digest);
            check_both(&image, expected);
        }
    }
}

/// The segments of source document 002: length, load address, place of the header.
const THIRTEEN: [(usize, u32, usize); 13] = [
    (0x13CE0, 0x3F40_0020, 0x00018),
    (0x00000, 0x3FF8_0000, 0x13D00),
    (0x00000, 0x3FF8_0000, 0x13D08),
    (0x028E0, 0x3FFB_0000, 0x13D10),
    (0x00000, 0x3FFB_28E0, 0x165F8),
    (0x00400, 0x4008_0000, 0x16600),
    (0x09600, 0x4008_0400, 0x16A08),
    (0x62E4C, 0x400D_0018, 0x20010),
    (0x06CEC, 0x4008_9A00, 0x82E64),
    (0x00000, 0x400C_0000, 0x89B58),
    (0x00004, 0x5000_0000, 0x89B60),
    (0x00000, 0x5000_0004, 0x89B6C),
    (0x00000, 0x5000_0004, 0x89B74),
];

/// The image of source document 002 with made-up data, with or without a digest.
fn image_of_document_002(digest: bool) -> Vec<u8> {
    let mut rng = Rng::new(2);
    let mut segments: Vec<Vec<u8>> = THIRTEEN.iter().map(|(length, ..)| vec![0; *length]).collect();
    segments.iter_mut().for_each(|data| rng.fill(data));
    segments[0][..8].copy_from_slice(&[0x32, 0x54, 0xCD, 0xAB, 1, 0, 0, 0]);
    let mut image = build_image(0, 0x4008_0EA4, &segments, digest);
    for (length, address, place) in THIRTEEN {
        assert_eq!(record::word_at(&image, place + 4), length as u32, "the header of a segment");
        image[place..][..4].copy_from_slice(&address.to_le_bytes());
    }
    if digest {
        add_digest(&mut image);
    }
    image
}

fn thirteen_segments() {
    let mut image = image_of_document_002(true);
    assert_eq!(image.len(), 564_128);
    check_both(&image, (0, 564_128));
    let mut out = [9; 4];
    assert_eq!((ffi::check_image(&image, BOARD, &mut out), out), (0, [564_128, 0x4008_0EA4, 1, 13]));
    image[0x30000] ^= 4;
    image[0x60000] ^= 4;
    check_both(&image, (30, 0x89B80));
    image[0x30000] ^= 4;
    check_both(&image, (28, 0x89B7F));
    image[0x60000] ^= 4;
    for place in [0x89B80, 0x89B9F] {
        image[place] ^= 1;
        check_both(&image, (30, 0x89B80));
        image[place] ^= 1;
    }
    check_both(&image, (0, 564_128));
    check_both(&image_of_document_002(false), (0, 0x89B80));
}

/// Three slots and factory, all with a digest. Those at the given places, factory after the slots, have a wrong one.
fn digest_node(wrong: &[usize]) -> (Vec<u32>, Vec<u8>) {
    let (list, mut flash) = plain_node(&[Some(1); 3], Some(1));
    flash.chunks_mut(0x1_0000).for_each(add_digest);
    wrong.iter().for_each(|place| spoil_digest(&mut flash[place * 0x1_0000..]));
    (list, flash)
}

/// The whole lengths of those images. The digest is the last 32 bytes.
const WITH_DIGEST: [u32; 4] = [336, 352, 368, 384];

/// A new record of slot 2 and a valid one of slot 1: boot falls back to slot 1, to factory, and to the first slot that passes. The record
/// of an app with a wrong digest stays new.
fn boots_by_digest() {
    let records = [valid(2), made(3, State::New)];
    for (wrong, [first, second], state, [kind, slot, sector], place) in [
        (&[][..], records, State::Pending, [2, 2, 1], 2),
        (&[0, 1, 3], records, State::Pending, [2, 2, 1], 2),
        (&[2], records, State::New, [2, 1, 0], 1),
        (&[0, 2, 3], records, State::New, [2, 1, 0], 1),
        (&[1, 2], records, State::New, [1, 0, 2], 3),
        (&[0, 1, 2], records, State::New, [1, 0, 2], 3),
        (&[1, 2, 3], records, State::New, [2, 0, 2], 0),
        (&[3], [None, None], State::New, [2, 0, 2], 0),
        (&[0, 3], [None, None], State::New, [2, 1, 2], 1),
        (&[0, 1, 3], [None, None], State::New, [2, 2, 2], 2),
    ] {
        let (list, flash) = digest_node(wrong);
        let otadata = two_sectors(first, second);
        let out = [kind, slot, sector, 0, WITH_DIGEST[place], ENTRIES[place]];
        let left = boot_both(&list, &flash, &otadata, ROLLBACK, (0, out));
        assert_eq!(left, two_sectors(first, second.and(made(3, state))));
    }
    let (list, flash) = digest_node(&[0, 1, 2, 3]);
    let otadata = two_sectors(valid(2), made(3, State::New));
    assert_eq!(boot_both(&list, &flash, &otadata, ROLLBACK, (10, [0, 0, 2, 0, 0, 0])), otadata);
}

/// What set-boot gives for a slot of that node: 0 with its image, or 5 with image number 30.
fn by_digest(slot: usize, wrong: bool) -> (u32, [u64; 4]) {
    let length = WITH_DIGEST[slot].into();
    match wrong {
        true => (5, [30, length - 32, 0, 0]),
        false => (0, [0, 0, length, ENTRIES[slot].into()]),
    }
}

/// The others' digests are wrong or right the other way round. Slot 1 is named already.
fn set_boots_by_digest() {
    let otadata = two_sectors(valid(2), None);
    for slot in 0..3 {
        let others: Vec<usize> = (0..4).filter(|place| *place != slot).collect();
        for (wrong, refused) in [(&[slot][..], true), (&others, false)] {
            let (list, flash) = digest_node(wrong);
            let left = set_boot_both(&list, &flash, &otadata, ROLLBACK, slot as u32, by_digest(slot, refused));
            assert_eq!(left == otadata, refused || slot == 1);
        }
    }
}

fn marks_by_digest() {
    for slot in 0..3 {
        let sequence = slot as u32 + 1;
        let pending = two_sectors(made(sequence, State::Pending), None);
        let others: Vec<usize> = (0..4).filter(|place| *place != slot).collect();
        for (wrong, refused) in [(&[slot][..], true), (&others, false)] {
            let (list, flash) = digest_node(wrong);
            let (number, [image_number, place, length, entry]) = by_digest(slot, refused);
            let expected = (number, [0, image_number, place, length, entry]);
            let mark = |otadata: &[u8]| mark_valid_both(&list, &flash, otadata, ROLLBACK, slot as u32, expected);
            let marked = two_sectors(valid(sequence), None);
            assert_eq!(mark(&pending), if refused { &pending } else { &marked }[..]);
            assert_eq!(mark(&marked), marked);
        }
    }
}

/// Slot 2 is given up: slot 1, factory or slot 0 is there to fall back to, or none.
fn fallbacks_by_digest() {
    let before = two_sectors(valid(2), valid(3));
    for (wrong, number) in [
        (&[][..], 0),
        (&[2], 0),
        (&[1], 0),
        (&[1, 3], 0),
        (&[0, 1], 0),
        (&[0, 3], 0),
        (&[0, 1, 3], 9),
        (&[0, 1, 2, 3], 9),
    ] {
        let (list, flash) = digest_node(wrong);
        let (mut library, mut model) = (before.clone(), before.clone());
        let reply = ffi::mark_invalid(Node { list: &list, flash: &flash, otadata: &mut library }, ROLLBACK, 2);
        let model_reply = update::mark_invalid(&list, &flash, &mut model, &plain(ROLLBACK), 2);
        both(reply, number_of(&model_reply), number);
        let state = if number == 9 { State::Valid } else { State::Invalid };
        both(library, model, two_sectors(valid(2), made(3, state)));
    }
}
