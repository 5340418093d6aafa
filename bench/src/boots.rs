//! Boots of nodes whose slots are full: the library beside the model, and where the time of each goes.

use crate::checks::{library, random_image, Checker, BOARD};
use crate::timing::{in_turns, print_row, readable, Work, HEAD, ROW};
use ota_tests::ffi::{self, Node};
use ota_tests::generate::two_sectors;
use ota_tests::record::{make, State};
use ota_tests::settings::Settings;
use ota_tests::{boot, image, partition};
use std::hint::black_box;

/// How often the library tests the list before it tries an app: when it accepts the node, and when it begins to choose. For each app that
/// it tries it tests the list once more. The model tests it once.
const LIST_CHECKS_FIRST: usize = 2;

const LIBRARY_SETTINGS: ffi::Settings = ffi::Settings { board: BOARD, efuse: 0, rollback: 1, anti_rollback: 0 };
const MODEL_SETTINGS: Settings = Settings { board: BOARD, efuse: 0, rollback: true, anti_rollback: false };

/// A boot that starts the app of the last slot.
struct Boot {
    name: String,
    list: Vec<u32>,
    flash: Vec<u8>,
    otadata: Vec<u8>,
    /// The size of a slot, and of its image.
    size: usize,
    /// The sector used, 2 for none.
    sector: u32,
    /// The apps from this slot on are tried.
    first: usize,
}

/// The rows of slots of 64 KiB.
pub fn small_rows() {
    for (name, n, digest) in [
        ("eight slots of 64 KiB", 8, false),
        ("sixteen slots of 64 KiB", 16, false),
        ("sixteen slots of 64 KiB with digests", 16, true),
    ] {
        for boot in boots(name, n, 64 << 10, digest) {
            print_row(&boot.row_name(), &in_turns(boot.whole(), ROW));
        }
    }
}

/// The rows of slots that fill a flash of 16 MiB as well as they can, and after them a table of the parts of each boot.
pub fn large() {
    println!("## Boots of a full flash");
    println!();
    println!(
        "Warm. Of slots of 1.5 MiB ten fit into the longest flash, 16 MiB; of sixteen slots none is larger than 1 MiB."
    );
    println!();
    println!("{HEAD}");
    let mut parts = Vec::new();
    for (name, n, size) in [("ten slots of 1.5 MiB", 10, 3 << 19), ("sixteen slots of 1 MiB", 16, 1 << 20)] {
        for digest in [false, true] {
            let name = format!("{name}{}", if digest { " with digests" } else { "" });
            parts.extend(boots(&name, n, size, digest).map(|boot| large_row(&boot)));
        }
    }
    println!();
    println!("## Where the time of a boot goes");
    println!();
    println!("Warm. The library tests the list {LIST_CHECKS_FIRST} times, and once more for each app that it tries; the model tests it");
    println!("once. Image checks are the checks of the images that the boot looks at, without the boot. The rest is the difference.");
    println!();
    println!("| Boot | Whole | List checks | Image checks | The rest |");
    println!("|---|---:|---:|---:|---:|");
    parts.iter().flatten().for_each(Parts::print);
}

/// Prints the row of a boot, and gives its parts: those of the library and those of the model. The list checks take no turns with the rest,
/// which would find less of the flash in the caches after them.
fn large_row(boot: &Boot) -> [Parts; 2] {
    let lists = in_turns(boot.list_checks(), ROW);
    let ([library, model], [by_library, by_model]) = (boot.whole(), boot.image_checks());
    let [library, model, images @ ..] = in_turns([library, model, by_library, by_model], ROW);
    let whole = [library, model];
    print_row(&boot.row_name(), &whole);
    let list_checks = [LIST_CHECKS_FIRST + boot.tried().count(), 1];
    [0, 1].map(|side| Parts {
        name: format!("{}: {}", boot.name, ["library", "model"][side]),
        whole: whole[side].median(),
        lists: list_checks[side] as f64 * lists[side].median(),
        images: images[side].median(),
    })
}

/// The seconds of a boot, and of what it does.
struct Parts {
    name: String,
    whole: f64,
    lists: f64,
    images: f64,
}

impl Parts {
    fn print(&self) {
        let rest = self.whole - self.lists - self.images;
        let [lists, images, rest] = [self.lists, self.images, rest]
            .map(|part| format!("{} ({:.1} %)", readable(part), 100.0 * part / self.whole));
        println!("| {} | {} | {lists} | {images} | {rest} |", self.name, readable(self.whole));
    }
}

/// The list of so many slots, one after the other.
pub fn slots(n: u32, size: usize) -> Vec<u32> {
    (0..n).flat_map(|slot| [16 + slot, slot * size as u32, size as u32]).collect()
}

/// Two boots of so many slots, each with an image of that size, with or without a digest.
fn boots(name: &str, n: u32, size: usize, digest: bool) -> [Boot; 2] {
    let list = slots(n, size);
    let last = n as usize - 1;
    let flash = random_image(size, digest).repeat(n as usize);
    // The last byte of all images but the last is wrong: of the checksum, or of the digest. So all are read, or hashed, to their end.
    let mut damaged = flash.clone();
    (1..=last).for_each(|slot| damaged[slot * size - 1] ^= 1);
    let refusal = image::check(&damaged[..size], BOARD).unwrap_err();
    assert_eq!(refusal.number, if digest { 30 } else { 28 });

    let record = |sequence| make(sequence, &[0xFF; 20], State::Valid.word()).ok();
    let active = Boot {
        name: format!("{name}, the active record's app passes"),
        list: list.clone(),
        flash,
        otadata: two_sectors(record(n - 1), record(n)),
        size,
        sector: 1,
        first: last,
    };
    let search = Boot {
        name: format!("{name}, no record, only the last slot's app passes"),
        list,
        flash: damaged,
        otadata: two_sectors(None, None),
        size,
        sector: 2,
        first: 0,
    };
    [active, search].map(Boot::asserted)
}

impl Boot {
    /// The boot itself, after both sides have left otadata as it was.
    fn asserted(self) -> Boot {
        let [mut first, mut second] = [self.otadata.clone(), self.otadata.clone()];
        self.library(&mut first);
        self.model(&mut second);
        assert!(first == self.otadata && second == self.otadata);
        self
    }

    fn library(&self, otadata: &mut [u8]) {
        let mut out = [0; 6];
        let node = Node { list: black_box(&self.list), flash: black_box(&self.flash), otadata: black_box(otadata) };
        assert_eq!(ffi::boot(node, LIBRARY_SETTINGS, &mut out), 0);
        assert_eq!(out[..3], [2, self.last(), self.sector]);
    }

    fn model(&self, otadata: &mut [u8]) {
        let (list, flash) = (black_box(&self.list), black_box(&self.flash));
        let started = boot::boot(list, flash, black_box(otadata), &MODEL_SETTINGS).unwrap();
        assert_eq!(started.app, boot::App::Slot(self.last()));
    }

    fn row_name(&self) -> String {
        format!("boot, {}", self.name)
    }

    fn last(&self) -> u32 {
        (self.flash.len() / self.size - 1) as u32
    }

    /// The images of the apps that are tried.
    fn tried(&self) -> impl Iterator<Item = &[u8]> {
        self.flash.chunks_exact(self.size).skip(self.first)
    }

    /// The boot by the library, and by the model.
    fn whole(&self) -> [Work<'_>; 2] {
        let [mut first, mut second] = [self.otadata.clone(), self.otadata.clone()];
        [Work::new(move || self.library(&mut first)), Work::new(move || self.model(&mut second))]
    }

    /// One check of the list by each.
    fn list_checks(&self) -> [Work<'_>; 2] {
        let library = || {
            let mut out = [0; 2];
            assert_eq!(ffi::check_list(black_box(&self.list), self.flash.len(), &mut out), 0);
        };
        let model = || {
            black_box(partition::check(black_box(&self.list), self.flash.len()).unwrap());
        };
        [Work::new(library), Work::new(model)]
    }

    /// The checks of all images that are tried, by each.
    fn image_checks(&self) -> [Work<'_>; 2] {
        let checkers: [Checker; 2] = [library, image::check];
        checkers.map(|check| {
            Work::new(move || {
                for image in self.tried() {
                    let _ = black_box(check(black_box(image), BOARD));
                }
            })
        })
    }
}
