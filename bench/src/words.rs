//! A million check words: the library's two calls beside the loop over bits that the library had before, beside the same tables in
//! ordinary Rust, and beside the model.

use crate::timing::row;
use ota_tests::ffi;
use ota_tests::record::check_word;
use std::hint::black_box;

const MILLION: u32 = 1_000_000;
const POLYNOMIAL: u32 = 0xEDB8_8320;

/// One step of the register.
const fn shift(register: u32) -> u32 {
    if register & 1 == 0 {
        return register >> 1;
    }
    (register >> 1) ^ POLYNOMIAL
}

/// The loop over bits. rustc sees a CRC in it and walks a table of 256 words of its own, with the same 22 instructions that the
/// library's compiler made of it.
#[inline(never)]
fn by_bits(sequence: u32) -> u32 {
    let mut register = 0;
    let mut rest = sequence;
    for _ in 0..32 {
        register = shift(register ^ (rest & 1));
        rest >>= 1;
    }
    !register
}

/// The table for so many bits: entry k is the register after the bits of k.
const fn table<const N: usize>() -> [u32; N] {
    let mut table = [0; N];
    let mut k = 0;
    while k < N {
        let mut register = k as u32;
        let mut bits = N;
        while bits > 1 {
            register = shift(register);
            bits /= 2;
        }
        table[k] = register;
        k += 1;
    }
    table
}

const NIBBLES: [u32; 16] = table();
const BYTES: [u32; 256] = table();

#[inline(never)]
fn by_nibbles(sequence: u32) -> u32 {
    !(0..8).fold(sequence, |register, _| (register >> 4) ^ NIBBLES[(register & 0xF) as usize])
}

#[inline(never)]
fn all_by_bytes(sequences: &mut [u32]) {
    for word in sequences {
        *word = !(0..4).fold(*word, |register, _| (register >> 8) ^ BYTES[(register & 0xFF) as usize]);
    }
}

pub fn rows() {
    assert!((1..=1_000).chain(u32::MAX - 1_000..=u32::MAX).all(|sequence| {
        let mut words = [sequence; 2];
        let mut ours = [sequence; 2];
        all_by_bytes(&mut words);
        ffi::check_words(&mut ours);
        let all =
            [words[0], words[1], ours[0], ours[1], by_bits(sequence), by_nibbles(sequence), ffi::check_word(sequence)];
        all == [check_word(sequence); 7]
    }));

    let library = || single(ffi::check_word);
    row("a million check words, one call each (before: the loop over bits)", library, || single(by_bits));
    row("a million check words, one call each (Rust: the same table)", library, || single(by_nibbles));
    row("a million check words, one call each (model)", library, || single(check_word));

    let mut sequences: Vec<u32> = (1..=MILLION).collect();
    let mut others = sequences.clone();
    let mut library = || assert_eq!(ffi::check_words(black_box(&mut sequences)), 0);
    row("a million check words in one call (before: one call each, the loop over bits)", &mut library, || {
        single(by_bits)
    });
    row("a million check words in one call (Rust: the same table)", &mut library, || {
        all_by_bytes(black_box(&mut others))
    });
}

fn single(word: fn(u32) -> u32) {
    let sum = (1..=MILLION).fold(0, |sum: u32, sequence| sum ^ word(black_box(sequence)));
    black_box(sum);
}
