//! Runs the vectors of digests, sectors, boot, power cuts and slices of check words through the static library: reads the cases on
//! standard input, 256 bytes each, and prints what `tests/vectors/cases.py` says of each.

use ota_tests::ffi::{self, Node, Settings};
use ota_tests::settings::Board;
use std::fmt::Write as _;
use std::io::{self, Read, Write};

const SECTOR: usize = 4096;
const STORES: usize = 4128;

/// A case, or a record: bytes with little-endian words in them.
struct Case<'a>(&'a [u8]);

impl Case<'_> {
    fn word(&self, at: usize) -> u32 {
        u32::from_le_bytes(self.0[at..at + 4].try_into().unwrap())
    }

    fn size(&self, at: usize) -> usize {
        self.word(at) as usize
    }

    fn half_at(&self, at: usize) -> u16 {
        u16::from_le_bytes([self.0[at], self.0[at + 1]])
    }

    fn half(&self) -> u16 {
        self.half_at(2)
    }

    fn settings(&self) -> Settings {
        let [rollback, anti_rollback] = [self.0[1] & 1, self.0[1] >> 1 & 1];
        let board = Board { chip_id: self.half(), revision: self.half_at(128) };
        Settings { board, efuse: self.word(4), rollback, anti_rollback }
    }
}

/// What the cases change.
struct Buffers {
    list: Vec<u32>,
    flash: Vec<u8>,
    otadata: Vec<u8>,
}

fn main() {
    let mut cases = Vec::new();
    io::stdin().read_to_end(&mut cases).expect("the cases are read");
    let mut buffers = Buffers { list: Vec::new(), flash: vec![0; 1 << 22], otadata: vec![0; 9216] };
    let mut lines = String::new();
    for bytes in cases.chunks(256) {
        let case = Case(bytes);
        if bytes[1] & 4 != 0 {
            let (first, second) = buffers.otadata.split_at_mut(SECTOR);
            fill(first, &bytes[16..48], &bytes[124..126]);
            fill(second, &bytes[48..80], &bytes[126..128]);
        }
        match bytes[0] {
            0 => {
                let part = &mut buffers.flash[case.size(4)..][..case.size(8)];
                fill(part, &bytes[16..][..case.size(12)], &bytes[124..126]);
            }
            7 => lines += &list(&case, &mut buffers),
            11 => lines += &digest(&buffers.flash[..case.size(12)]),
            13 => lines += &active(&case, &buffers),
            14 | 15 => lines += &rewrite(&case, &mut buffers),
            16 => lines += &boot(&case, &mut buffers),
            17 => lines += &cuts(&case, &buffers),
            18 => lines += &words(&case),
            kind => panic!("no kind {kind}"),
        }
    }
    io::stdout().write_all(lines.as_bytes()).expect("the lines are written");
}

/// Fills a slice: the bytes of `front`, and after them the filler's start, with its step 1 plus a number that differs from place to place.
/// No case of this program has the step 2.
fn fill(part: &mut [u8], front: &[u8], filler: &[u8]) {
    for (i, byte) in part.iter_mut().enumerate() {
        let more = filler[1] as usize * (7 * i + 13 * (i / 256) + 29 * (i / 65536));
        *byte = front.get(i).copied().unwrap_or((filler[0] as usize + more) as u8);
    }
}

fn list(case: &Case, buffers: &mut Buffers) -> String {
    let place = |i| 16 + 4 * if i < 60 { i } else { 57 + i % 3 };
    buffers.list = (0..case.half() as usize).map(|i| case.word(place(i))).collect();
    let mut out = [0; 2];
    let number = ffi::check_list(&buffers.list, case.size(4) + (case.size(8) << 32), &mut out);
    format!("list {number} {} {}\n", out[0], out[1])
}

fn digest(message: &[u8]) -> String {
    let mut digest = [0; 32];
    let number = ffi::sha256(message, &mut digest);
    format!("digest {number} {}\n", sum(&digest))
}

fn active(case: &Case, buffers: &Buffers) -> String {
    let first = &buffers.otadata[..case.size(4)];
    let second = &buffers.otadata[SECTOR..][..case.size(8)];
    let mut record = [0; 32];
    let number = ffi::active(first, second, &mut record);
    let found = if number == 0 { "none".into() } else { hex(&record) };
    format!("active {number} {found} {} {}\n", shown(first), shown(second))
}

fn rewrite(case: &Case, buffers: &mut Buffers) -> String {
    let sector = &mut buffers.otadata[SECTOR * case.half() as usize..][..case.size(4)];
    let record = &case.0[80..][..case.size(8) % 256];
    let (name, number) = if case.0[0] == 15 {
        ("rewrite", ffi::rewrite(sector, record))
    } else {
        let from = case.size(12);
        let stores = from..from + case.size(8) / 256;
        ("stores", stores.fold(0, |_, m| ffi::store(sector, record, m)))
    };
    let read = shown(sector);
    format!("{name} {number} {read} {}\n", sum(&buffers.otadata))
}

fn boot(case: &Case, buffers: &mut Buffers) -> String {
    let reply = reply(case, &buffers.list, &buffers.flash, &mut buffers.otadata[..case.size(8)]);
    format!("boot {reply} {}\n", sum(&buffers.otadata))
}

/// All cuts of a rewrite, one line for each run of cuts after which everything is the same.
fn cuts(case: &Case, buffers: &Buffers) -> String {
    let mut otadata = buffers.otadata[..2 * SECTOR].to_vec();
    let at = SECTOR * case.size(8);
    let mut runs: Vec<(usize, usize, String)> = Vec::new();
    for k in 0..=STORES {
        if k > 0 {
            ffi::store(&mut otadata[at..at + SECTOR], &case.0[80..112], k - 1);
        }
        let follows = follower(case, buffers, at, otadata.clone());
        match runs.last_mut() {
            Some(run) if run.2 == follows => run.1 = k,
            _ => runs.push((k, k, follows)),
        }
    }
    runs.iter().fold(String::new(), |mut lines, (from, to, follows)| {
        let _ = writeln!(lines, "cuts {from} {to} {follows}");
        lines
    })
}

fn words(case: &Case) -> String {
    let mut words: Vec<u32> = (0..case.half() as usize).map(|i| case.word(16 + 4 * i)).collect();
    let number = ffi::check_words(&mut words);
    words.iter().fold(format!("words {number}"), |line, word| format!("{line} {word}")) + "\n"
}

/// What the rewritten sector reads as, the reply of the next boot, and what the two sectors then read as.
fn follower(case: &Case, buffers: &Buffers, at: usize, mut otadata: Vec<u8>) -> String {
    let read = shown(&otadata[at..at + SECTOR]);
    let reply = reply(case, &buffers.list, &buffers.flash, &mut otadata);
    format!("{read} {reply} {} {}", shown(&otadata[..SECTOR]), shown(&otadata[SECTOR..]))
}

fn reply(case: &Case, list: &[u32], flash: &[u8], otadata: &mut [u8]) -> String {
    let mut out = [9; 6];
    let node = Node { list, flash: &flash[..case.size(12)], otadata };
    let number = ffi::boot(node, case.settings(), &mut out);
    out.iter().fold(number.to_string(), |line, value| format!("{line} {value}"))
}

/// What a sector reads as: its record, or why there is none.
fn shown(sector: &[u8]) -> String {
    let mut out = [9; 3];
    match (ffi::read_sector(sector, &mut out), out) {
        (0, [1, sequence, state]) => {
            let record = Case(sector);
            assert_eq!([sequence, state], [record.word(0), record.word(24)], "sequence and state of a good record");
            hex(&sector[..32])
        }
        (0, [2, 0, 0]) => "blank".into(),
        (0, [3, 0, 0]) => "bad-sequence".into(),
        (0, [4, 0, 0]) => "bad-check".into(),
        (0, [5, 0, 0]) => "bad-state".into(),
        (2, [0, 0, 0]) => "wrong-size".into(),
        (number, out) => panic!("no sector reads as {number} {out:?}"),
    }
}

/// A number that changes with any byte.
fn sum(bytes: &[u8]) -> u64 {
    bytes.iter().fold(0, |sum, &byte| (sum * 257 + u64::from(byte)) % 4_294_967_291)
}

fn hex(bytes: &[u8]) -> String {
    bytes.iter().fold(String::new(), |mut text, byte| {
        let _ = write!(text, "{byte:02x}");
        text
    })
}
