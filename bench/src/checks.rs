//! The image check: the library beside the ordinary checker of the tests, and beside the fastest one in Rust.

use crate::fastest;
use crate::timing::row;
use ota_tests::ffi;
use ota_tests::generate::{drawn_image, lone_image, plain_image, redo_digest};
use ota_tests::image::{self, Facts, DESCRIPTOR_PLACE, DIGEST_SIZE};
use ota_tests::refusal::ImageRefusal;
use ota_tests::rng::Rng;
use ota_tests::settings::Board;
use std::collections::BTreeSet;
use std::hint::black_box;

/// The images are for chip 0 and every revision.
pub const BOARD: Board = Board { chip_id: 0, revision: 301 };
/// So many random images of each kind are given to all checkers before anything is timed.
const CASES: usize = 3_000;
/// So many long ones: each length modulo 256 that a multiple of 16 has.
const LONG_CASES: usize = 16;

pub type Checker = fn(&[u8], Board) -> Result<Facts, ImageRefusal>;

/// The library, the ordinary checker and the fastest one.
pub const CHECKERS: [Checker; 3] = [library, image::check, fastest::check];

pub fn library(image: &[u8], board: Board) -> Result<Facts, ImageRefusal> {
    let mut out = [0; 4];
    match ffi::check_image(image, board, &mut out) {
        0 => Ok(Facts { length: out[0], entry: out[1] as u32, version: out[2] as u32, segments: out[3] as u32 }),
        number => Err(ImageRefusal { number, place: out[0] }),
    }
}

/// All checkers give the same replies to random images, good and damaged, and every reply comes up.
pub fn assert_agreement() {
    let mut rng = Rng::new(13);
    let mut numbers = BTreeSet::new();
    for _ in 0..CASES {
        let (image, board) = lone_image(&mut rng);
        let drawn = drawn_image(&mut rng);
        numbers.extend([agreed(&image, board), agreed(&drawn.image, drawn.board)]);
    }
    assert!(numbers.into_iter().eq([0].into_iter().chain(20..=31)), "some reply did not come up");
    (0..LONG_CASES).for_each(|case| assert_agreement_on_long(&mut rng, case));
}

/// The same of an image whose checksum is summed by halves, and of that image with a wrong bit of its data.
fn assert_agreement_on_long(rng: &mut Rng, case: usize) {
    let length = (1 << 20) + 16 * case;
    let mut image = random_image(length, false);
    assert_eq!(agreed(&image, BOARD), 0);
    image[40 + rng.below(length - 56)] ^= 1 << rng.below(8);
    assert_eq!(agreed(&image, BOARD), 28);
}

/// The number that all checkers give.
fn agreed(image: &[u8], board: Board) -> u32 {
    let [first, others @ ..] = CHECKERS.map(|check| check(image, board));
    assert_eq!(others, [first; 2]);
    first.map_or_else(|refusal| refusal.number, |_| 0)
}

/// Rows beside the ordinary checker, and after them the same beside the fastest, with the same images.
pub fn rows() {
    let kinds = [(false, "checksum alone"), (true, "with digest")];
    let images = [("64 KiB", 64 << 10), ("1.5 MiB", 3 << 19)].map(|(size, length)| {
        kinds.map(|(digest, kind)| (format!("image check, {size}, {kind}"), random_image(length, digest)))
    });
    let [library, rust @ ..] = CHECKERS;
    for (name, rust) in ["ordinary", "fastest"].into_iter().zip(rust) {
        for (work, image) in images.as_flattened() {
            let timed = |check: Checker| move || check_accepted(check, image);
            row(&format!("{work} (Rust: {name})"), timed(library), timed(rust));
        }
    }
}

/// Checks an image, which has to be accepted.
pub fn check_accepted(check: Checker, image: &[u8]) {
    assert!(black_box(check(black_box(image), BOARD)).is_ok());
}

/// An image of exactly `length` bytes, one segment of random bytes, with or without a digest.
pub fn random_image(length: usize, digest: bool) -> Vec<u8> {
    let padded = length - if digest { DIGEST_SIZE } else { 0 };
    let end = padded - 16;
    let mut image = plain_image(0, 1, end - DESCRIPTOR_PLACE, digest);
    assert_eq!(image.len(), length);
    let before = image[40..end].iter().fold(0, |sum, byte| sum ^ byte);
    Rng::new(1).fill(&mut image[40..end]);
    let after = image[40..end].iter().fold(0, |sum, byte| sum ^ byte);
    image[padded - 1] ^= before ^ after;
    redo_digest(&mut image);
    image
}
