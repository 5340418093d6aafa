//! The numbers with which a call refuses: both tables of document 01, and what document 02 adds to them.

/// Why an image is refused: 20 to 31, and the place in the image.
#[derive(Clone, Copy, PartialEq, Eq, Debug)]
pub struct ImageRefusal {
    pub number: u32,
    pub place: u64,
}

/// Why a call is refused.
#[derive(Clone, Copy, PartialEq, Eq, Debug)]
pub enum Refusal {
    /// The list or the flash's length breaks its rules.
    List,
    /// Otadata, a sector or a record has a wrong size.
    Size,
    /// Anti-rollback without rollback, or with a factory entry.
    Settings,
    /// The slot or running slot isn't below n.
    NoSuchSlot,
    /// The image is refused.
    Image(ImageRefusal),
    /// The version is below the eFuse version, with anti-rollback on.
    TooOld,
    /// The new sequence would pass the highest.
    SequenceEnd,
    /// No active record names the running slot; query: no good record names the slot.
    NotNamed,
    /// No app to fall back to.
    NoFallback,
    /// Nothing bootable.
    NothingBootable,
    /// The active record is pending, with rollback on.
    Pending,
    /// No such store.
    NoSuchStore,
    /// The fields make no good record.
    NotGood,
}

impl Refusal {
    /// Document 01's number.
    pub fn number(self) -> u32 {
        match self {
            Refusal::List => 1,
            Refusal::Size => 2,
            Refusal::Settings => 3,
            Refusal::NoSuchSlot => 4,
            Refusal::Image(_) => 5,
            Refusal::TooOld => 6,
            Refusal::SequenceEnd => 7,
            Refusal::NotNamed => 8,
            Refusal::NoFallback => 9,
            Refusal::NothingBootable => 10,
            Refusal::Pending => 11,
            Refusal::NoSuchStore => 12,
            Refusal::NotGood => 17,
        }
    }
}

/// The number of a reply: 0 where it is done.
pub fn number_of<T>(reply: &Result<T, Refusal>) -> u32 {
    reply.as_ref().err().map_or(0, |refusal| refusal.number())
}
