//! Checks an app's image and boots a node: two app slots, an old app that works and a new one on trial.
//!
//! ```text
//! ./library
//! rustc --edition 2021 -L target/staticlib -l static=ota examples/boot_node.rs
//! ```

// From include/ota.h.
extern "C" {
    fn ota_make_record(sequence: u32, label: *const u8, state: u32, record: *mut u8) -> u32;
    fn ota_rewrite(sector: *mut u8, len: usize, record: *const u8, record_len: usize) -> u32;
    fn ota_check_image(image: *const u8, len: usize, chip_id: u16, revision: u16, out: *mut u64) -> u32;
    fn ota_boot(
        list: *const u32,
        words: usize,
        flash: *const u8,
        flash_len: usize,
        otadata: *mut u8,
        otadata_len: usize,
        chip_id: u16,
        revision: u16,
        efuse: u32,
        rollback: u8,
        anti_rollback: u8,
        out: *mut u32,
    ) -> u32;
}

const SLOT_SIZE: usize = 0x10000;
const SECTOR_SIZE: usize = 4096;
/// An ESP32 of revision 3.1.
const CHIP_ID: u16 = 0;
const REVISION: u16 = 301;
const NEW: u32 = 0;
const VALID: u32 = 2;

/// The partition list, here a slot 0 and a slot 1: subtype, offset and size of each. The subtype of slot 0 is 16.
const LIST: [u32; 6] = [16, 0, SLOT_SIZE as u32, 17, SLOT_SIZE as u32, SLOT_SIZE as u32];

/// Puts a small image into a slot, as a build tool makes it: one segment of 256 bytes with the app's descriptor.
fn put_image(slot: &mut [u8], entry: u32, version: u8) {
    slot[..304].fill(0);
    slot[0] = 0xE9; // magic
    slot[1] = 1; // segments
    slot[4..8].copy_from_slice(&entry.to_le_bytes()); // the entry address
    slot[15..17].copy_from_slice(&300_u16.to_le_bytes()); // the minimum revision, 3.0; the maximum stays 0, no limit
    slot[29] = 1; // the segment's length, 256
    slot[32..36].copy_from_slice(&0xABCD5432_u32.to_le_bytes());
    slot[36] = version; // the secure version
    slot[303] = 0xEF ^ version; // the checksum; the descriptor's four bytes cancel out
}

/// Puts a record into a sector. With two slots, sequence 1 names slot 0, sequence 2 slot 1, sequence 3 slot 0, and so on.
fn put_record(sector: &mut [u8], sequence: u32, state: u32) {
    let (label, mut record) = ([0; 20], [0; 32]);
    unsafe {
        ota_make_record(sequence, label.as_ptr(), state, record.as_mut_ptr());
        ota_rewrite(sector.as_mut_ptr(), sector.len(), record.as_ptr(), record.len());
    }
}

/// Boots with no version burned, rollback on and anti-rollback off, and says what was decided.
fn boot(flash: &[u8], otadata: &mut [u8]) {
    let (flash_len, otadata_len, mut out) = (flash.len(), otadata.len(), [0; 6]);
    let (list, flash, otadata) = (LIST.as_ptr(), flash.as_ptr(), otadata.as_mut_ptr());
    let number = unsafe {
        ota_boot(list, LIST.len(), flash, flash_len, otadata, otadata_len, CHIP_ID, REVISION, 0, 1, 0, out.as_mut_ptr())
    };
    match number {
        0 => println!("boot starts slot {} through sector {}, entry {:#010x}", out[1], out[2], out[5]),
        _ => println!("boot refused with {number}"),
    }
}

fn main() {
    let mut flash = vec![0xFF; 2 * SLOT_SIZE];
    let mut otadata = vec![0xFF; 2 * SECTOR_SIZE];
    put_image(&mut flash, 0x4008_0000, 1);
    put_image(&mut flash[SLOT_SIZE..], 0x4008_0400, 2);
    put_record(&mut otadata[..SECTOR_SIZE], 1, VALID);
    put_record(&mut otadata[SECTOR_SIZE..], 2, NEW);

    // Is the image in slot 1 whole, and for this chip and its revision?
    let (slot, mut facts) = (&flash[SLOT_SIZE..], [0; 4]);
    let number = unsafe { ota_check_image(slot.as_ptr(), slot.len(), CHIP_ID, REVISION, facts.as_mut_ptr()) };
    assert_eq!(number, 0, "image refused at byte {}", facts[0]);
    println!("slot 1 holds an image of {} bytes, version {}", facts[0], facts[2]);

    boot(&flash, &mut otadata); // The new app starts on trial: its record becomes pending.
    boot(&flash, &mut otadata); // It never called ota_mark_valid, so its record becomes aborted and the old app starts.
}
