//! Times the proved library beside the model, an ordinary Rust implementation, or what else a row names, and prints Markdown tables
//! of the times and their ratios.

mod boots;
mod checks;
mod digests;
mod fastest;
mod growth;
mod memory;
mod openssl;
mod timing;
mod unrolled;
mod words;

use ota_tests::ffi;
use ota_tests::partition::{self, FLASH_MAX};
use ota_tests::record::{make, State};
use ota_tests::sector::{self, SECTOR_SIZE};
use std::hint::black_box;
use timing::{row, HEAD, ROW};

fn main() {
    checks::assert_agreement();
    header();
    section("Image check");
    checks::rows();
    println!();
    section("Other work");
    words::rows();
    whole_rewrite();
    check_list();
    boots::small_rows();
    println!();
    growth::tables();
    println!();
    boots::large();
    println!();
    section("SHA-256");
    digests::rows();
}

fn header() {
    let (runs, run) = (ROW.count, 1e3 * ROW.seconds);
    println!("{runs} runs of each side, which take turns in one process on one core. A run repeats the work for about {run} ms.");
    println!("Both sides are release builds. A time is the median of the runs; 10 % to 90 % are their 10th and 90th percentile.");
    println!(
        "Warm buffers: each side has done the work before on the same buffers, and nothing is cleared between runs."
    );
    println!("Cold ones are in the table *Growth, from memory* alone.");
    println!();
}

/// The heading of a section and the head of its table.
fn section(title: &str) {
    println!("## {title}");
    println!();
    println!("Warm.");
    println!();
    println!("{HEAD}");
}

fn whole_rewrite() {
    let record = make(1, &[0xFF; 20], State::Valid.word()).unwrap();
    let mut sectors = [vec![0; SECTOR_SIZE], vec![0; SECTOR_SIZE], vec![0; SECTOR_SIZE]];
    let [first, second, third] = &mut sectors;
    row(
        "whole rewrite (model: the same 4,128 stores)",
        || assert_eq!(ffi::rewrite(black_box(first), black_box(&record)), 0),
        || sector::rewrite(black_box(second), black_box(&record)).unwrap(),
    );
    row(
        "whole rewrite (model: fill and copy)",
        || assert_eq!(ffi::rewrite(black_box(first), black_box(&record)), 0),
        || {
            let sector = black_box(&mut *third);
            sector.fill(0xFF);
            sector[..32].copy_from_slice(black_box(&record));
        },
    );
    assert!(sectors[0] == sectors[1] && sectors[1] == sectors[2]);
}

fn check_list() {
    let list = boots::slots(16, 64 << 10);
    let library = || {
        let mut out = [0; 2];
        (ffi::check_list(black_box(&list), FLASH_MAX, &mut out), out[0])
    };
    let model = || partition::check(black_box(&list), FLASH_MAX).map(|partitions| partitions.n());
    assert_eq!((library(), model()), ((0, 16), Ok(16)));
    row(
        "list check, sixteen slots",
        || {
            black_box(library());
        },
        || {
            let _ = black_box(model());
        },
    );
}
