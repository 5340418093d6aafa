//! What a call would have given if one thing had not been looked at: whether that thing alone is why it went the way it went.

use crate::calls::WAYS;
use crate::revisions::Limits;
use ota_tests::generate::{digest_place, limit_revisions, redo_digest, NodeCase};
use ota_tests::image::{DIGEST_SIZE, MAXIMUM_PLACE};
use ota_tests::settings::Board;

/// A reason for which an image is refused.
#[derive(Clone, Copy, PartialEq, Eq, Debug)]
pub enum Overlooked {
    Revision,
    Digest,
}

/// Bytes to be put into the flash, by their places.
pub type Patches = Vec<(usize, Vec<u8>)>;

/// What must come up of each: every way of a boot that was passed over for it alone, and each call that it alone refuses.
pub fn to_be_met() -> Vec<String> {
    let mut things = Vec::new();
    for overlooked in Overlooked::ALL {
        let name = overlooked.name();
        things.extend(WAYS.map(|way| format!("boot: {way} but for the {name}")));
        let alone = ["boot: 10", "set_boot: 5", "mark_valid: 5", "mark_invalid: 9", "mark_invalid: another fallback"];
        things.extend(alone.map(|reply| format!("{reply} for the {name} alone")));
    }
    things
}

/// Puts the bytes of the patches into the flash and keeps what was there instead, so that the second time it is as before.
pub fn exchange(flash: &mut [u8], patches: &mut Patches) {
    for (place, bytes) in patches {
        flash[*place..][..bytes.len()].swap_with_slice(bytes);
    }
}

impl Overlooked {
    pub const ALL: [Overlooked; 2] = [Overlooked::Revision, Overlooked::Digest];

    pub fn name(self) -> &'static str {
        match self {
            Overlooked::Revision => "revision",
            Overlooked::Digest => "digest",
        }
    }

    /// What to patch so that no image of the node is refused for it. Every other reason stays.
    pub fn patches(self, case: &NodeCase, flash: &[u8]) -> Patches {
        if case.list.broken.is_some() {
            return Vec::new();
        }
        let parts = case.list.words.chunks(3).map(|entry| (entry[1] as usize, entry[2] as usize));
        let mended = |(offset, size): (usize, usize)| {
            self.mended(&flash[offset..][..size], case.settings.board).map(|bytes| (offset, bytes))
        };
        parts.filter_map(mended).collect()
    }

    /// The front of an image as it must be so that it isn't refused for it; none where nothing is to be changed.
    fn mended(self, image: &[u8], board: Board) -> Option<Vec<u8>> {
        // Nothing changes after the digest, or after the limits where there is none.
        let end = digest_place(image).map_or(MAXIMUM_PLACE + 2, |place| place + DIGEST_SIZE);
        let mut mended = image[..end].to_vec();
        match self {
            Overlooked::Revision if Limits::of(image)?.fit(board.revision) => {}
            Overlooked::Revision => limit_revisions(&mut mended, 0, 0),
            Overlooked::Digest => redo_digest(&mut mended),
        }
        (mended != image[..end]).then_some(mended)
    }
}
