//! The tally of a run: how often each call gave each number, and what else came up.

use std::collections::BTreeMap;

/// How often each number and each thing to be met must come up.
pub const AT_LEAST: u64 = 50;

/// The numbers of document 01's tables, order 5's 30 and order 10's 31, by the calls that can give them.
const NUMBERS: [(&str, &[u32]); 13] = [
    ("make_record", &[0, 17]),
    ("read_sector", &[0, 2]),
    ("store", &[0, 2, 12]),
    ("rewrite", &[0, 2]),
    ("check_list", &[0, 1]),
    ("check_image", &IMAGE_NUMBERS),
    ("boot", &[0, 1, 2, 3, 10]),
    ("set_boot", &[0, 1, 2, 3, 4, 5, 6, 7, 11]),
    ("mark_valid", &[0, 1, 2, 3, 4, 5, 6, 8]),
    ("mark_invalid", &[0, 1, 2, 3, 4, 8, 9]),
    ("state_query", &[0, 1, 2, 4, 8]),
    ("next_slot", &[0, 1, 2, 3, 4, 11]),
    // The image numbers that come with a 5. A slot has 4,096 bytes or more, so 20 can't.
    ("5 with", &[21, 22, 23, 24, 25, 26, 27, 28, 29, 30, 31]),
];

/// The calls with a list, and the numbers of slots that it is drawn with.
const WITH_LIST: [&str; 7] =
    ["check_list", "boot", "set_boot", "mark_valid", "mark_invalid", "state_query", "next_slot"];
const SLOT_COUNTS: std::ops::RangeInclusive<u32> = 2..=17;

const CALL_NUMBERS: [u32; 14] = [0, 1, 2, 3, 4, 5, 6, 7, 8, 9, 10, 11, 12, 17];
const IMAGE_NUMBERS: [u32; 13] = [0, 20, 21, 22, 23, 24, 25, 26, 27, 28, 29, 30, 31];

#[derive(Default)]
pub struct Tally {
    numbers: BTreeMap<(&'static str, u32), u64>,
    image_numbers: BTreeMap<(&'static str, u32), u64>,
    slots: BTreeMap<(&'static str, u32), u64>,
    met: BTreeMap<String, u64>,
    pub calls: u64,
}

impl Tally {
    /// A call gave a number of document 01.
    pub fn number(&mut self, call: &'static str, number: u32) {
        let numbers = if call == "check_image" { &mut self.image_numbers } else { &mut self.numbers };
        *numbers.entry((call, number)).or_default() += 1;
        self.calls += 1;
    }

    /// A call gave 5 with an image number.
    pub fn image_number(&mut self, call: &'static str, number: u32) {
        *self.image_numbers.entry((call, number)).or_default() += 1;
    }

    /// A call gave 0 with a list of n slots, or 1 with one of seventeen.
    pub fn slots(&mut self, call: &'static str, n: u32) {
        *self.slots.entry((call, n)).or_default() += 1;
    }

    /// Something worth meeting came up.
    pub fn met(&mut self, what: impl Into<String>) {
        *self.met.entry(what.into()).or_default() += 1;
    }

    /// Asserts that every number of both tables came up often enough, in each call that can give it, each call with each number
    /// of slots, and all of `things`.
    pub fn assert_met(&self, things: &[String]) {
        for (call, numbers) in NUMBERS {
            let rows: &[&'static str] = if call == "5 with" { &["set_boot", "mark_valid"] } else { &[call] };
            for row in rows {
                for number in numbers {
                    let of_image = call == "check_image" || call == "5 with";
                    let counts = if of_image { &self.image_numbers } else { &self.numbers };
                    let count = counts.get(&(*row, *number)).copied().unwrap_or(0);
                    assert!(count >= AT_LEAST, "{row} gave {number} only {count} times");
                }
            }
        }
        for call in WITH_LIST {
            for n in SLOT_COUNTS {
                let count = self.slots.get(&(call, n)).copied().unwrap_or(0);
                assert!(count >= AT_LEAST, "{call} with {n} slots only {count} times");
            }
        }
        for thing in things {
            let count = self.met.get(thing).copied().unwrap_or(0);
            assert!(count >= AT_LEAST, "'{thing}' came up only {count} times");
        }
    }

    pub fn print(&self) {
        print_table("call \\ number", &CALL_NUMBERS, &self.numbers);
        print_table("image number", &IMAGE_NUMBERS, &self.image_numbers);
        print_table("call \\ slots", &SLOT_COUNTS.collect::<Vec<u32>>(), &self.slots);
        println!("{:>9}  came up", "times");
        for (what, count) in &self.met {
            println!("{count:>9}  {what}");
        }
    }
}

fn print_table(corner: &str, columns: &[u32], counts: &BTreeMap<(&'static str, u32), u64>) {
    print!("{corner:<14}");
    columns.iter().for_each(|column| print!("{column:>7}"));
    println!();
    for (call, _) in NUMBERS {
        if counts.keys().any(|(row, _)| *row == call) {
            print!("{call:<14}");
            for column in columns {
                match counts.get(&(call, *column)) {
                    Some(count) => print!("{count:>7}"),
                    None => print!("{:>7}", "."),
                }
            }
            println!();
        }
    }
    let unlisted =
        counts.keys().find(|(row, number)| !columns.contains(number) || !NUMBERS.iter().any(|(call, _)| call == row));
    assert_eq!(unlisted, None, "{corner}: no such column or row");
    println!();
}
