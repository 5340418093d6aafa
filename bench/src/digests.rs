//! SHA-256: the library beside the plain implementation of the tests, beside an unrolled one, and beside OpenSSL.

use crate::timing::row;
use crate::{openssl, unrolled};
use ota_tests::rng::Rng;
use ota_tests::{ffi, sha256};
use std::hint::black_box;

type Digest = [u8; sha256::DIGEST_SIZE];

/// The lengths of the messages that are timed.
const LENGTHS: [(&str, usize); 2] = [("64 KiB", 64 << 10), ("1.5 MiB", 3 << 19)];

/// The rows of the table. After it, in a table of its own, comes the speed of the library beside that of OpenSSL.
pub fn rows() {
    let speeds = LENGTHS.map(|(name, length)| length as f64 / message_rows(name, &message(length)));
    println!();
    openssl::print(LENGTHS, speeds);
}

/// Times a message, and gives the seconds that the library takes.
fn message_rows(name: &str, message: &[u8]) -> f64 {
    assert!((0..=300).chain([message.len()]).all(|length| agreed(&message[..length])));
    let timed = |digest: fn(&[u8]) -> Digest| {
        move || {
            black_box(digest(black_box(message)));
        }
    };
    row(&format!("SHA-256, {name} (Rust: plain)"), timed(library), timed(sha256::digest));
    let [times, _] = row(&format!("SHA-256, {name} (Rust: unrolled)"), timed(library), timed(unrolled::digest));
    times.median()
}

/// Whether all three give the same digest.
fn agreed(message: &[u8]) -> bool {
    let plain = sha256::digest(message);
    library(message) == plain && unrolled::digest(message) == plain
}

fn library(message: &[u8]) -> Digest {
    let mut digest = [0; sha256::DIGEST_SIZE];
    assert_eq!(ffi::sha256(message, &mut digest), 0);
    digest
}

fn message(length: usize) -> Vec<u8> {
    let mut message = vec![0; length];
    Rng::new(1).fill(&mut message);
    message
}
