//! The proved library's C interface: the declarations of `include/ota.h`, and a safe function over each.
//!
//! Every number, `out` and lent byte is given as the library leaves it; nothing is checked here.

use crate::settings::Board;

/// The settings as they are passed: a flag is on where it is not 0.
#[derive(Clone, Copy, PartialEq, Eq, Debug)]
pub struct Settings {
    pub board: Board,
    pub efuse: u32,
    pub rollback: u8,
    pub anti_rollback: u8,
}

/// What the calls on a node are lent.
#[derive(Debug)]
pub struct Node<'a> {
    pub list: &'a [u32],
    pub flash: &'a [u8],
    pub otadata: &'a mut [u8],
}

mod c {
    extern "C" {
        pub fn ota_check_word(sequence: u32) -> u32;
        pub fn ota_check_words(sequences: *mut u32, count: usize) -> u32;
        pub fn ota_make_record(sequence: u32, label: *const u8, state: u32, record: *mut u8) -> u32;
        pub fn ota_read_sector(sector: *const u8, len: usize, out: *mut u32) -> u32;
        pub fn ota_active(s0: *const u8, len0: usize, s1: *const u8, len1: usize, record: *mut u8) -> u32;
        pub fn ota_store(sector: *mut u8, len: usize, record: *const u8, record_len: usize, m: usize) -> u32;
        pub fn ota_rewrite(sector: *mut u8, len: usize, record: *const u8, record_len: usize) -> u32;
        pub fn ota_check_list(list: *const u32, words: usize, flash_len: usize, out: *mut u32) -> u32;
        pub fn ota_sha256(bytes: *const u8, len: usize, digest: *mut u8) -> u32;
        pub fn ota_check_image(image: *const u8, len: usize, chip_id: u16, revision: u16, out: *mut u64) -> u32;
        pub fn ota_efuse_version(chip_id: u16, efuse: u32) -> u32;
        pub fn ota_efuse_raise(chip_id: u16, efuse: u32, version: u32) -> u32;
        pub fn ota_boot(
            list: *const u32,
            words: usize,
            flash: *const u8,
            flash_len: usize,
            otadata: *mut u8,
            otadata_len: usize,
            chip_id: u16,
            revision: u16,
            efuse: u32,
            rollback: u8,
            anti_rollback: u8,
            out: *mut u32,
        ) -> u32;
        pub fn ota_set_boot(
            list: *const u32,
            words: usize,
            flash: *const u8,
            flash_len: usize,
            otadata: *mut u8,
            otadata_len: usize,
            chip_id: u16,
            revision: u16,
            efuse: u32,
            rollback: u8,
            anti_rollback: u8,
            slot: u32,
            out: *mut u64,
        ) -> u32;
        pub fn ota_mark_valid(
            list: *const u32,
            words: usize,
            flash: *const u8,
            flash_len: usize,
            otadata: *mut u8,
            otadata_len: usize,
            chip_id: u16,
            revision: u16,
            efuse: u32,
            rollback: u8,
            anti_rollback: u8,
            slot: u32,
            out: *mut u64,
        ) -> u32;
        pub fn ota_mark_invalid(
            list: *const u32,
            words: usize,
            flash: *const u8,
            flash_len: usize,
            otadata: *mut u8,
            otadata_len: usize,
            chip_id: u16,
            revision: u16,
            efuse: u32,
            rollback: u8,
            anti_rollback: u8,
            slot: u32,
        ) -> u32;
        pub fn ota_state_query(
            list: *const u32,
            words: usize,
            flash: *const u8,
            flash_len: usize,
            otadata: *const u8,
            otadata_len: usize,
            slot: u32,
            out: *mut u32,
        ) -> u32;
        pub fn ota_next_slot(
            list: *const u32,
            words: usize,
            flash: *const u8,
            flash_len: usize,
            otadata: *const u8,
            otadata_len: usize,
            chip_id: u16,
            revision: u16,
            efuse: u32,
            rollback: u8,
            anti_rollback: u8,
            running: u32,
            out: *mut u32,
        ) -> u32;
    }
}

// Safety, of every call below: each pointer comes from a slice or array that lives through the call, with that slice's
// own length or the fixed size that the interface states, and a pointer that is written through comes from a `&mut`.

pub fn check_word(sequence: u32) -> u32 {
    unsafe { c::ota_check_word(sequence) }
}

pub fn check_words(sequences: &mut [u32]) -> u32 {
    unsafe { c::ota_check_words(sequences.as_mut_ptr(), sequences.len()) }
}

pub fn make_record(sequence: u32, label: &[u8; 20], state: u32, record: &mut [u8; 32]) -> u32 {
    unsafe { c::ota_make_record(sequence, label.as_ptr(), state, record.as_mut_ptr()) }
}

pub fn read_sector(sector: &[u8], out: &mut [u32; 3]) -> u32 {
    unsafe { c::ota_read_sector(sector.as_ptr(), sector.len(), out.as_mut_ptr()) }
}

pub fn active(first: &[u8], second: &[u8], record: &mut [u8; 32]) -> u32 {
    unsafe { c::ota_active(first.as_ptr(), first.len(), second.as_ptr(), second.len(), record.as_mut_ptr()) }
}

pub fn store(sector: &mut [u8], record: &[u8], m: usize) -> u32 {
    unsafe { c::ota_store(sector.as_mut_ptr(), sector.len(), record.as_ptr(), record.len(), m) }
}

pub fn rewrite(sector: &mut [u8], record: &[u8]) -> u32 {
    unsafe { c::ota_rewrite(sector.as_mut_ptr(), sector.len(), record.as_ptr(), record.len()) }
}

pub fn check_list(list: &[u32], flash_len: usize, out: &mut [u32; 2]) -> u32 {
    unsafe { c::ota_check_list(list.as_ptr(), list.len(), flash_len, out.as_mut_ptr()) }
}

pub fn sha256(bytes: &[u8], digest: &mut [u8; 32]) -> u32 {
    unsafe { c::ota_sha256(bytes.as_ptr(), bytes.len(), digest.as_mut_ptr()) }
}

pub fn check_image(image: &[u8], board: Board, out: &mut [u64; 4]) -> u32 {
    unsafe { c::ota_check_image(image.as_ptr(), image.len(), board.chip_id, board.revision, out.as_mut_ptr()) }
}

pub fn efuse_version(chip_id: u16, efuse: u32) -> u32 {
    unsafe { c::ota_efuse_version(chip_id, efuse) }
}

pub fn efuse_raise(chip_id: u16, efuse: u32, version: u32) -> u32 {
    unsafe { c::ota_efuse_raise(chip_id, efuse, version) }
}

/// Calls a function on a node: its slices, then its settings, then what else it takes.
macro_rules! call_node {
    ($function:ident, $node:expr, $settings:expr $(, $more:expr)*) => {{
        let (node, settings) = ($node, $settings);
        unsafe {
            c::$function(
                node.list.as_ptr(),
                node.list.len(),
                node.flash.as_ptr(),
                node.flash.len(),
                node.otadata.as_mut_ptr(),
                node.otadata.len(),
                settings.board.chip_id,
                settings.board.revision,
                settings.efuse,
                settings.rollback,
                settings.anti_rollback
                $(, $more)*
            )
        }
    }};
}

pub fn boot(node: Node, settings: Settings, out: &mut [u32; 6]) -> u32 {
    call_node!(ota_boot, node, settings, out.as_mut_ptr())
}

pub fn set_boot(node: Node, settings: Settings, slot: u32, out: &mut [u64; 4]) -> u32 {
    call_node!(ota_set_boot, node, settings, slot, out.as_mut_ptr())
}

pub fn mark_valid(node: Node, settings: Settings, slot: u32, out: &mut [u64; 5]) -> u32 {
    call_node!(ota_mark_valid, node, settings, slot, out.as_mut_ptr())
}

pub fn mark_invalid(node: Node, settings: Settings, slot: u32) -> u32 {
    call_node!(ota_mark_invalid, node, settings, slot)
}

pub fn state_query(node: Node, slot: u32, out: &mut [u32; 1]) -> u32 {
    unsafe {
        c::ota_state_query(
            node.list.as_ptr(),
            node.list.len(),
            node.flash.as_ptr(),
            node.flash.len(),
            node.otadata.as_ptr(),
            node.otadata.len(),
            slot,
            out.as_mut_ptr(),
        )
    }
}

/// The running slot that stands for factory.
pub const RUNNING_FACTORY: u32 = 0xFFFF_FFFF;

pub fn next_slot(node: Node, settings: Settings, running: u32, out: &mut [u32; 1]) -> u32 {
    call_node!(ota_next_slot, node, settings, running, out.as_mut_ptr())
}
