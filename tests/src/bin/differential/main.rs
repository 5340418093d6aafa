//! Holds the proved library to the model: every call on many random cases, every byte compared, and a rewrite cut at every
//! place.
//!
//! `differential` runs all, `differential SEED` with another seed, `differential SEED CASE` one case alone.

mod calls;
mod cuts;
mod digests;
mod examples;
mod overlooked;
mod revisions;
mod tally;

use calls::Run;
use ota_tests::sector::STORES;
use std::time::Instant;
use tally::AT_LEAST;

const SEED: u64 = 20_260_101;
const CASES: u64 = 60_000;

fn main() {
    let mut arguments = std::env::args().skip(1).map(|word| word.parse::<u64>().expect("a number"));
    let seed = arguments.next().unwrap_or(SEED);
    let mut run = Run::new(seed);
    if let Some(case) = arguments.next() {
        run.case(case);
        println!("differential: seed {seed}, case {case}: the library and the model agree");
        return;
    }

    let start = Instant::now();
    println!("differential: seed {seed}, {CASES} cases\n");
    let examples = examples::run();
    (0..CASES).for_each(|case| run.case(case));
    run.assert_flash_erased();
    let cuts = cuts::run(seed);

    run.tally.print();
    println!();
    println!(
        "power cuts: {} rewrites cut at all {} places, and {} lists of rewrites; {} cuts",
        cuts.rewrites,
        STORES + 1,
        cuts.lists,
        cuts.cuts
    );
    println!("{:>9}  the sector reads as the old record", cuts.reads_old);
    println!("{:>9}  as the new record", cuts.reads_new);
    println!("{:>9}  as none, blank", cuts.reads_blank);
    println!("{:>9}  as none, bad sequence", cuts.reads_bad_sequence);
    println!("{:>9}  as none, bad check", cuts.reads_bad_check);
    println!("{:>9}  boot starts the rewritten sector's app", cuts.starts_rewritten);
    println!("{:>9}  the untouched sector's app", cuts.starts_untouched);
    println!("{:>9}  the active record's app is refused for the revision alone", cuts.wrong_revision);
    println!("{:>9}  for the digest alone", cuts.wrong_digest);
    println!();
    run.tally.assert_met(&calls::to_be_met());
    println!(
        "differential: seed {seed}: {} calls of {CASES} cases, {} cuts and {examples} groups of examples agree; \
         every number at least {AT_LEAST} times; {:.1} s",
        run.tally.calls,
        cuts.cuts,
        start.elapsed().as_secs_f64()
    );
}
