//! The image check in ordinary Rust written for speed, with the replies of the other checkers: the checksum is summed by words, sixteen
//! at a time, and the digest is that of [`unrolled`]. Of the shapes that were tried, this was the fastest.

use crate::unrolled;
use ota_tests::image::*;
use ota_tests::record::word_at;
use ota_tests::refusal::ImageRefusal;
use ota_tests::settings::{efuse_width, Board};

/// How many words are summed side by side. Of 4, 8, 16, 24 and 32 this was the fastest at 64 KiB; at 1.5 MiB 24 was as fast.
const LANES: usize = 16;
/// Data of this length or more is read in two halves at once, which was up to 7 % faster. Shorter data was not read faster so, and more
/// slowly from memory.
const LONG: usize = 512 << 10;

type Word = [u8; 8];

/// Checks an image for a board: 20, then the header, the segments, and what stands after them.
pub fn check(image: &[u8], board: Board) -> Result<Facts, ImageRefusal> {
    let head = image.first_chunk().ok_or(ImageRefusal { number: 20, place: 0 })?;
    test_head(head, board)?;
    let (end, checksum) = walk(image, head[1])?;
    let length = test_end(image, end, checksum, board)?;
    Ok(Facts {
        length: length as u64,
        entry: word_at(head, 4),
        version: word_at(head, VERSION_PLACE),
        segments: head[1].into(),
    })
}

fn test(right: bool, number: u32, place: usize) -> Result<(), ImageRefusal> {
    if right {
        return Ok(());
    }
    Err(ImageRefusal { number, place: place as u64 })
}

/// 21 to 23, 31 and 24.
fn test_head(head: &[u8; IMAGE_MIN], board: Board) -> Result<(), ImageRefusal> {
    let half_at = |place: usize| u16::from_le_bytes([head[place], head[place + 1]]);
    test(head[0] == MAGIC, 21, 0)?;
    test((1..=SEGMENTS_MAX).contains(&head[1]), 22, 1)?;
    test(half_at(12) == board.chip_id, 23, 12)?;
    let maximum = half_at(MAXIMUM_PLACE);
    let fits = half_at(MINIMUM_PLACE) <= board.revision && (maximum == 0 || board.revision <= maximum);
    test(fits, 31, MINIMUM_PLACE)?;
    test(head[FLAG_PLACE] <= 1, 24, FLAG_PLACE)
}

/// 25. Gives the end of the last segment, and the checksum of all data.
fn walk(image: &[u8], count: u8) -> Result<(usize, u8), ImageRefusal> {
    let mut end = HEADER_SIZE;
    let mut checksum = CHECKSUM_START;
    for _ in 0..count {
        let data = segment_data(image, end).ok_or(ImageRefusal { number: 25, place: end as u64 })?;
        checksum ^= xor(data);
        end += SEGMENT_HEADER_SIZE + data.len();
    }
    Ok((end, checksum))
}

/// 26 to 30. Gives the whole length.
fn test_end(image: &[u8], end: usize, checksum: u8, board: Board) -> Result<usize, ImageRefusal> {
    let first_length = word_at(image, HEADER_SIZE + 4) as usize;
    let described = first_length >= DESCRIPTOR_SIZE && word_at(image, DESCRIPTOR_PLACE) == DESCRIPTOR_WORD;
    test(described, 26, DESCRIPTOR_PLACE)?;
    let padded = padded_end(end);
    let length = padded + DIGEST_SIZE * usize::from(image[FLAG_PLACE]);
    test(length <= image.len(), 27, end)?;
    test(image[padded - 1] == checksum, 28, padded - 1)?;
    test(word_at(image, VERSION_PLACE) <= efuse_width(board.chip_id), 29, VERSION_PLACE)?;
    test(length == padded || image[padded..length] == unrolled::digest(&image[..padded]), 30, padded)?;
    Ok(length)
}

/// The exclusive or of all bytes.
pub fn xor(bytes: &[u8]) -> u8 {
    let (words, rest) = bytes.as_chunks();
    let sum = if bytes.len() < LONG { sum(words) } else { sum_by_halves(words) };
    sum.to_ne_bytes().iter().chain(rest).fold(0, |sum, byte| sum ^ byte)
}

fn sum(words: &[Word]) -> u64 {
    let (groups, others) = words.as_chunks();
    let mut sums = [0; LANES];
    groups.iter().for_each(|group| add(&mut sums, group));
    others.iter().fold(joined(&sums), |sum, word| sum ^ u64::from_ne_bytes(*word))
}

fn sum_by_halves(words: &[Word]) -> u64 {
    let (groups, others) = words.as_chunks();
    let (first, second) = groups.split_at(groups.len() / 2);
    let mut sums = [[0; LANES / 2]; 2];
    for (left, right) in first.iter().zip(second) {
        add(&mut sums[0], left);
        add(&mut sums[1], right);
    }
    let unpaired = second[first.len()..].as_flattened();
    joined(sums.as_flattened()) ^ sum(unpaired) ^ sum(others)
}

fn add<const N: usize>(sums: &mut [u64; N], words: &[Word; N]) {
    for (sum, word) in sums.iter_mut().zip(words) {
        *sum ^= u64::from_ne_bytes(*word);
    }
}

fn joined(sums: &[u64]) -> u64 {
    sums.iter().fold(0, |sum, word| sum ^ word)
}
