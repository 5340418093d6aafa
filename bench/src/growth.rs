//! How the speed of the image check grows with the image, beside that of reading its bytes alone: warm, and from memory.

use crate::checks::{check_accepted, random_image, CHECKERS};
use crate::memory::{bandwidth, by_bytes, by_halves, by_words, cores, halves, last_cache, Ring, RING_SIZE};
use crate::timing::{in_turns, least, Runs, Times, Work};

const SIZES: [(&str, usize); 6] = [
    ("16 KiB", 16 << 10),
    ("64 KiB", 64 << 10),
    ("256 KiB", 256 << 10),
    ("1 MiB", 1 << 20),
    ("4 MiB", 4 << 20),
    ("16 MiB", 16 << 20),
];
const RUNS: Runs = Runs { count: 15, seconds: 0.01 };

pub fn tables() {
    let mut ring = Ring::new();
    println!("## Growth, warm, GB/s");
    println!();
    println!("Warm: one image, checked over and over. {}", notes());
    head();
    for (name, size) in SIZES {
        line(&mut ring, name, size, 1);
    }
    println!();
    println!("## Growth, from memory, GB/s");
    println!();
    println!(
        "Cold: a ring of {} MiB, filled with copies of the image. Each check takes the next copy, whoever checked the one before. {}",
        RING_SIZE >> 20,
        cache()
    );
    head();
    from_memory(&mut ring);
}

fn notes() -> String {
    format!(
        "Medians of {} runs of {} ms; of reading alone, by one core, the fastest run, since it is a bound. 1 GB is 10^9 bytes.",
        RUNS.count,
        1e3 * RUNS.seconds
    )
}

fn cache() -> String {
    match last_cache() {
        Some(size) => format!("The last cache has {} MiB.", size >> 10),
        None => "The size of the last cache is not known.".into(),
    }
}

fn head() {
    println!();
    println!(
        "| Size | Checksum: library | Rust | fastest Rust | Digest: library | Rust | fastest Rust | Reading alone |"
    );
    println!("|---|---:|---:|---:|---:|---:|---:|---:|");
}

/// The lines of the ring that no cache holds. After each, the bandwidth is measured; the highest counts, over all of them.
fn from_memory(ring: &mut Ring) {
    let mut most = [0.0, 0.0];
    for (name, size) in SIZES {
        let reading = line(ring, name, size, RING_SIZE / size);
        let [one, all] = bandwidth(ring);
        most = [one.max(reading).max(most[0]), all.max(most[1])];
    }
    let [one, all] = most.map(giga);
    println!();
    println!("Memory bandwidth: one core {one} GB/s, all {} cores {all} GB/s.", cores());
    println!("These are the fastest of all runs that only read the ring, by words, by bytes or by comparing halves.");
}

/// Prints a line, for so many copies of an image of that size. Gives the speed of reading alone.
fn line(ring: &mut Ring, name: &str, size: usize, copies: usize) -> f64 {
    let [checksum, digest] = [false, true].map(|digest| {
        ring.fill(&random_image(size, digest), copies);
        checks(ring)
    });
    ring.fill(&halves(size), copies);
    let compared = in_turns([Work::new(|| by_halves(ring.next()))], RUNS);

    let reading = size as f64 / least(checksum[3..].iter().chain(&digest[3..]).chain(&compared));
    let medians = checksum[..3].iter().chain(&digest[..3]).map(|times| size as f64 / times.median());
    let cells: Vec<String> = medians.chain([reading]).map(giga).collect();
    println!("| {name} | {} |", cells.join(" | "));
    reading
}

/// The times of the three checkers, and of two ways to read the same copies.
fn checks(ring: &Ring) -> [Times; 5] {
    let [library, ordinary, fastest] = CHECKERS.map(|check| Work::new(move || check_accepted(check, ring.next())));
    let [words, bytes] = [by_words, by_bytes].map(|read| Work::new(move || read(ring.next())));
    in_turns([library, ordinary, fastest, words, bytes], RUNS)
}

/// Three digits of a speed, in 10^9 bytes a second.
fn giga(speed: f64) -> String {
    match speed / 1e9 {
        giga if giga >= 99.95 => format!("{giga:.0}"),
        giga if giga >= 9.995 => format!("{giga:.1}"),
        giga if giga >= 0.9995 => format!("{giga:.2}"),
        giga => format!("{giga:.3}"),
    }
}
