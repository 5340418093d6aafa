//! Memory that is read: a ring of copies that no cache holds, and how fast its bytes can be read.

use crate::fastest::xor;
use crate::timing::{in_turns, least, Runs, Work};
use std::cell::Cell;
use std::fs::read_to_string;
use std::hint::black_box;
use std::num::NonZero;
use std::thread;

/// The size of the ring.
pub const RING_SIZE: usize = 512 << 20;
/// The ring begins at a multiple of this.
const PAGE: usize = 4_096;
/// The bytes that the ring repeats while all of it is read. They have equal halves, and so has any number of copies of them.
const REPEATED: usize = 16 << 10;
/// One run reads the ring once.
const RUNS: Runs = Runs { count: 9, seconds: 0.01 };

/// Copies of the same bytes, one after the other. Who asks for one gets the next, whoever asked before.
pub struct Ring {
    memory: Vec<u8>,
    /// The length of a copy, and how many there are.
    length: usize,
    copies: usize,
    next: Cell<usize>,
}

impl Ring {
    pub fn new() -> Ring {
        Ring { memory: vec![0; RING_SIZE + PAGE], length: 0, copies: 0, next: Cell::new(0) }
    }

    pub fn fill(&mut self, bytes: &[u8], copies: usize) {
        (self.length, self.copies) = (bytes.len(), copies);
        let begin = self.begin();
        let places = self.memory[begin..].chunks_exact_mut(bytes.len());
        places.take(copies).for_each(|place| place.copy_from_slice(bytes));
    }

    pub fn next(&self) -> &[u8] {
        let copy = self.next.get() % self.copies;
        self.next.set(copy + 1);
        &self.memory[self.begin()..][copy * self.length..][..self.length]
    }

    fn all(&self) -> &[u8] {
        &self.memory[self.begin()..][..self.copies * self.length]
    }

    fn begin(&self) -> usize {
        self.memory.as_ptr().align_offset(PAGE)
    }
}

pub fn by_words(bytes: &[u8]) {
    black_box(xor(black_box(bytes)));
}

/// A little faster than by words where short parts come from memory.
pub fn by_bytes(bytes: &[u8]) {
    black_box(black_box(bytes).iter().fold(0, |sum, byte| sum ^ byte));
}

/// Reads bytes whose two halves are equal by comparing these, which is libc's `memcmp`.
pub fn by_halves(bytes: &[u8]) {
    let (first, second) = black_box(bytes).split_at(bytes.len() / 2);
    assert!(first == second);
}

/// So many bytes, with equal halves.
pub fn halves(length: usize) -> Vec<u8> {
    let mut half: Vec<u8> = (0..=u8::MAX).collect();
    half.resize(length / 2, 0x5A);
    half.repeat(2)
}

pub fn cores() -> usize {
    thread::available_parallelism().map_or(1, NonZero::get)
}

/// The most bytes a second that one core, and that all cores at once, read from the ring in some runs.
pub fn bandwidth(ring: &mut Ring) -> [f64; 2] {
    ring.fill(&halves(REPEATED), RING_SIZE / REPEATED);
    let part = ring.all().len() / cores() / REPEATED * REPEATED;
    let parts: Vec<&[u8]> = ring.all().chunks_exact(part).collect();
    [vec![ring.all()], parts].map(|parts| {
        let parts = &parts[..];
        let ways = [by_words, by_bytes, by_halves].map(|read| Work::new(move || read_at_once(parts, read)));
        let bytes: usize = parts.iter().map(|part| part.len()).sum();
        bytes as f64 / least(&in_turns(ways, RUNS))
    })
}

/// Reads all parts, each in a thread of its own.
fn read_at_once(parts: &[&[u8]], read: fn(&[u8])) {
    thread::scope(|scope| {
        for part in parts {
            scope.spawn(move || read(part));
        }
    });
}

/// The size of the cache of the third level in KiB, where the system says it.
pub fn last_cache() -> Option<usize> {
    let text = read_to_string("/sys/devices/system/cpu/cpu0/cache/index3/size").ok()?;
    text.trim().strip_suffix('K')?.parse().ok()
}
