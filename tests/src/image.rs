//! The app image: its layout and the check of it.

use crate::record::word_at;
use crate::refusal::ImageRefusal;
use crate::settings::{efuse_width, Board};
use crate::sha256;
use std::ops::RangeInclusive;

pub use crate::sha256::DIGEST_SIZE;

pub const MAGIC: u8 = 0xE9;
pub const HEADER_SIZE: usize = 24;
pub const SEGMENT_HEADER_SIZE: usize = 8;
pub const SEGMENTS_MAX: u8 = 16;
/// The minimum and the maximum revision, two bytes each, neither aligned.
pub const MINIMUM_PLACE: usize = 15;
pub const MAXIMUM_PLACE: usize = 17;
pub const DESCRIPTOR_SIZE: usize = 256;
pub const DESCRIPTOR_WORD: u32 = 0xABCD_5432;
pub const DESCRIPTOR_PLACE: usize = 32;
pub const VERSION_PLACE: usize = 36;
pub const CHECKSUM_START: u8 = 0xEF;
pub const FLAG_PLACE: usize = 23;
/// The shortest image that isn't refused with 20: header, one segment header and the descriptor.
pub const IMAGE_MIN: usize = 288;

/// The facts of an accepted image.
#[derive(Clone, Copy, PartialEq, Eq, Debug)]
pub struct Facts {
    pub length: u64,
    pub entry: u32,
    pub version: u32,
    pub segments: u32,
}

/// What a loader needs of an accepted image: its whole length and its entry address.
#[derive(Clone, Copy, PartialEq, Eq, Debug)]
pub struct Loadable {
    pub length: u64,
    pub entry: u32,
}

impl Facts {
    pub fn loadable(&self) -> Loadable {
        Loadable { length: self.length, entry: self.entry }
    }
}

/// Checks an image for a board. The first test that fails gives its number: the lowest that applies, but that 31 comes before 24.
pub fn check(image: &[u8], board: Board) -> Result<Facts, ImageRefusal> {
    let test = |right: bool, number: u32, place: usize| {
        right.then_some(()).ok_or(ImageRefusal { number, place: place as u64 })
    };
    test(image.len() >= IMAGE_MIN, 20, 0)?;
    test(image[0] == MAGIC, 21, 0)?;
    let count = image[1];
    test((1..=SEGMENTS_MAX).contains(&count), 22, 1)?;
    test(half_at(image, 12) == board.chip_id, 23, 12)?;
    test(revisions(image).contains(&board.revision), 31, MINIMUM_PLACE)?;
    let flag = image[FLAG_PLACE];
    test(flag <= 1, 24, FLAG_PLACE)?;

    let mut end = HEADER_SIZE;
    let mut checksum = CHECKSUM_START;
    for _ in 0..count {
        let data = segment_data(image, end);
        test(data.is_some(), 25, end)?;
        let data = data.unwrap_or_default();
        checksum = data.iter().fold(checksum, |sum, byte| sum ^ byte);
        end += SEGMENT_HEADER_SIZE + data.len();
    }
    let first_length = word_at(image, HEADER_SIZE + 4) as usize;
    let described = first_length >= DESCRIPTOR_SIZE && word_at(image, DESCRIPTOR_PLACE) == DESCRIPTOR_WORD;
    test(described, 26, DESCRIPTOR_PLACE)?;

    let padded = padded_end(end);
    let length = padded + if flag == 1 { DIGEST_SIZE } else { 0 };
    test(length <= image.len(), 27, end)?;
    test(image[padded - 1] == checksum, 28, padded - 1)?;
    let version = word_at(image, VERSION_PLACE);
    test(version <= efuse_width(board.chip_id), 29, VERSION_PLACE)?;
    test(flag == 0 || image[padded..length] == sha256::digest(&image[..padded]), 30, padded)?;
    Ok(Facts { length: length as u64, entry: word_at(image, 4), version, segments: count.into() })
}

/// The end of the padding of an image whose last segment ends at `end`: the next multiple of 16 above.
pub fn padded_end(end: usize) -> usize {
    (end / 16 + 1) * 16
}

/// The revisions that an image is for. As a maximum, 0 is no limit; nor is 65,535, the highest that two bytes hold.
fn revisions(image: &[u8]) -> RangeInclusive<u16> {
    let maximum = match half_at(image, MAXIMUM_PLACE) {
        0 => u16::MAX,
        maximum => maximum,
    };
    half_at(image, MINIMUM_PLACE)..=maximum
}

fn half_at(image: &[u8], place: usize) -> u16 {
    u16::from_le_bytes([image[place], image[place + 1]])
}

/// The data of the segment whose header is at `place`, or none if it passes the end or its length isn't a multiple of 4.
pub fn segment_data(image: &[u8], place: usize) -> Option<&[u8]> {
    let (header, rest) = image.get(place..)?.split_at_checked(SEGMENT_HEADER_SIZE)?;
    let length = word_at(header, 4) as usize;
    if length.is_multiple_of(4) {
        rest.get(..length)
    } else {
        None
    }
}

#[cfg(test)]
mod tests {
    use super::*;
    use crate::generate::{edit, limit_revisions, plain_image, spoil_digest, LIMITS};

    const ESP32: Board = Board { chip_id: 0, revision: 301 };

    #[test]
    fn the_smallest_image() {
        let mut image = plain_image(0, 1, 256, false);
        assert_eq!((image.len(), image[303]), (304, 0xEE));
        assert_eq!(check(&image, ESP32), Ok(Facts { length: 304, entry: 0x4008_0000, version: 1, segments: 1 }));
        image = plain_image(0, 1, 256, true);
        assert_eq!(check(&image, ESP32).unwrap().length, 336);
        image.truncate(335);
        assert_eq!(check(&image, ESP32), Err(ImageRefusal { number: 27, place: 288 }));
    }

    #[test]
    fn the_end_of_source_document_002() {
        let image = plain_image(0, 1, 0x89B7C - 32, true);
        assert_eq!(check(&image, ESP32).unwrap().length, 564_128);
        let mut wrong = image.clone();
        wrong[0x89B7F] ^= 1;
        assert_eq!(check(&wrong, ESP32), Err(ImageRefusal { number: 28, place: 0x89B7F }));
    }

    #[test]
    fn lengths_of_segment_0() {
        let with_length = |length: u32| {
            let mut image = plain_image(0, 1, 256, false);
            image[28..32].copy_from_slice(&length.to_le_bytes());
            check(&image, ESP32).map_err(|refusal| (refusal.number, refusal.place))
        };
        assert_eq!(with_length(254), Err((25, 24)));
        assert_eq!(with_length(252), Err((26, 32)));
        assert_eq!(with_length(276), Err((25, 24)));
        assert_eq!(with_length(0xFFFF_FFFC), Err((25, 24)));
        assert!(with_length(256).is_ok());
    }

    #[test]
    fn versions_and_widths() {
        let check = |chip_id, version| check(&plain_image(chip_id, version, 256, false), Board { chip_id, ..ESP32 });
        for (chip_id, width) in [(0, 32), (5, 16), (16, 16), (0x0100, 16)] {
            assert_eq!(check(chip_id, width).map(|facts| facts.version), Ok(width));
            assert_eq!(check(chip_id, width + 1), Err(ImageRefusal { number: 29, place: 36 }));
        }
    }

    /// What an image for other revisions gets.
    const WRONG_REVISION: Result<Facts, ImageRefusal> = Err(ImageRefusal { number: 31, place: 15 });

    #[test]
    fn revisions_and_limits() {
        for (minimum, maximum, fitting) in LIMITS {
            let mut image = plain_image(0, 1, 256, false);
            limit_revisions(&mut image, minimum, maximum);
            for revision in 0..=u16::MAX {
                let fits = fitting.is_some_and(|[first, last]| (first..=last).contains(&revision));
                let reply = check(&image, Board { revision, ..ESP32 });
                let right = if fits { reply.is_ok() } else { reply == WRONG_REVISION };
                assert!(right, "{minimum} to {maximum}, revision {revision}: {reply:?}");
            }
        }
    }

    /// The fields are the bytes 15 and 16, 17 and 18, the lower byte first. The bytes beside them aren't read.
    #[test]
    fn the_bytes_of_the_limits() {
        let with_bytes = |bytes: [u8; 6], revision| {
            let mut image = plain_image(0, 1, 256, false);
            image[14..20].copy_from_slice(&bytes);
            check(&image, Board { revision, ..ESP32 })
        };
        for beside in [0, 1, 0xFF] {
            let with_limits = |bytes: [u8; 4], revision| {
                let [a, b, c, d] = bytes;
                with_bytes([beside, a, b, c, d, beside], revision)
            };
            for (bytes, first, last) in [
                ([0x2C, 0x01, 0x90, 0x01], 300, 400),
                ([0x02, 0x01, 0x01, 0x02], 0x0102, 0x0201),
                ([0x00, 0x01, 0x00, 0x02], 0x0100, 0x0200),
                ([0x01, 0x00, 0x02, 0x00], 1, 2),
            ] {
                assert!(with_limits(bytes, first).is_ok() && with_limits(bytes, last).is_ok());
                assert_eq!(with_limits(bytes, first - 1), WRONG_REVISION);
                assert_eq!(with_limits(bytes, last + 1), WRONG_REVISION);
            }
            for maximum in [0, 0xFF] {
                assert!(with_limits([0, 0, maximum, maximum], 0).is_ok());
                assert!(with_limits([0, 0, maximum, maximum], 65_535).is_ok());
            }
        }
    }

    /// What the smallest image with a wrong digest gets.
    const WRONG_DIGEST: Result<Facts, ImageRefusal> = Err(ImageRefusal { number: 30, place: 304 });

    /// No bit of an image with a digest can change without a refusal, but for the flag's: then it is an image without.
    #[test]
    fn every_bit_counts() {
        let image = plain_image(0, 1, 256, true);
        for bit in 0..8 * image.len() {
            let mut changed = image.clone();
            changed[bit / 8] ^= 1 << (bit % 8);
            let reply = check(&changed, ESP32);
            match bit / 8 {
                FLAG_PLACE if bit % 8 == 0 => assert_eq!(reply.unwrap().length, 304),
                // The bytes of the header that no test reads, the load address and the padding.
                2..=11 | 14 | 19..=22 | 24..=27 | 288..=302 => assert_eq!(reply, WRONG_DIGEST),
                304..=335 => assert_eq!(reply, WRONG_DIGEST),
                _ => assert!(reply.is_err(), "bit {bit}"),
            }
        }
    }

    /// Two flipped bits that cancel in the checksum: accepted without a digest, refused with one, wherever they are.
    #[test]
    fn bits_that_cancel() {
        for digest in [false, true] {
            let image = plain_image(0, 1, 256, digest);
            for place in 40..287 {
                let mut changed = image.clone();
                changed[place] ^= 0x10;
                changed[place + 1] ^= 0x10;
                assert_eq!(check(&changed, ESP32), if digest { WRONG_DIGEST } else { check(&image, ESP32) });
            }
        }
    }

    /// The padding belongs to what is hashed, the checksum too, and bytes after the digest don't.
    #[test]
    fn what_the_digest_is_of() {
        let image = plain_image(0, 1, 256, true);
        let [mut with_its_own, mut with_the_old] = [image.clone(), image.clone()];
        edit(&mut with_its_own, |image| image[290] = 0x5A);
        with_the_old[290] = 0x5A;
        assert_eq!(check(&with_its_own, ESP32), check(&image, ESP32));
        assert_eq!(check(&with_the_old, ESP32), WRONG_DIGEST);
        for end in [288, 303] {
            let mut shorter = image.clone();
            shorter[304..].copy_from_slice(&sha256::digest(&image[..end]));
            assert_eq!(check(&shorter, ESP32), WRONG_DIGEST);
        }
        assert_eq!(check(&[&image[..], &[7; 9]].concat(), ESP32), check(&image, ESP32));
    }

    /// The faults pile up from the last test to the first; each time the new one is given.
    #[test]
    fn the_first_fault_is_given() {
        let mut image = plain_image(5, 16, 256, true);
        let board = Board { chip_id: 5, revision: 0xFDFF };
        let number = |image: &[u8]| check(image, board).map_err(|refusal| (refusal.number, refusal.place)).unwrap_err();
        spoil_digest(&mut image);
        assert_eq!(number(&image), (30, 304));
        image[36] ^= 1;
        image[303] ^= 1;
        assert_eq!(number(&image), (29, 36));
        assert_eq!(number(&image[..335]), (27, 288));
        let mut worse = image.clone();
        for (place, expected) in
            [(303, (28, 303)), (32, (26, 32)), (28, (25, 24)), (23, (24, 23)), (16, (31, 15)), (13, (23, 12))]
        {
            worse[place] ^= 0xFE;
            assert_eq!(number(&worse), expected);
        }
        worse[1] = 17;
        assert_eq!(number(&worse), (22, 1));
        worse[0] = 0;
        assert_eq!(number(&worse), (21, 0));
        assert_eq!(number(&worse[..287]), (20, 0));
    }

    /// A wrong revision beside each of the later faults alone.
    #[test]
    fn a_wrong_revision_comes_before_later_faults() {
        let good = plain_image(0, 1, 256, false);
        let passing_the_end = good[..303].to_vec();
        let mut images = vec![(good.clone(), 0), (passing_the_end, 27)];
        for (place, number) in [(23, 24), (28, 25), (32, 26), (303, 28), (39, 29)] {
            let mut image = good.clone();
            image[place] ^= 2;
            if number == 29 {
                image[303] ^= 2;
            }
            images.push((image, number));
        }
        for (mut image, number) in images {
            assert_eq!(check(&image, ESP32).map_or_else(|refusal| refusal.number, |_| 0), number);
            limit_revisions(&mut image, 302, 0);
            assert_eq!(check(&image, ESP32), WRONG_REVISION);
            limit_revisions(&mut image, 0, 300);
            assert_eq!(check(&image, ESP32), WRONG_REVISION);
        }
    }
}
