//! The other calls: set-boot, mark-valid, mark-invalid, the state query and the next update slot.

use crate::boot::{accept, accept_node, boot, App};
use crate::image::{self, Facts, Loadable};
use crate::partition::Partitions;
use crate::record::{Record, State, HIGHEST_SEQUENCE, LABEL_SIZE};
use crate::refusal::Refusal;
use crate::sector::{active, readings, rewrite_in};
use crate::settings::{efuse_raise, Settings};

/// Makes `slot` the one to start: a new record in the sector that isn't active. Gives the slot's image.
pub fn set_boot(
    list: &[u32],
    flash: &[u8],
    otadata: &mut [u8],
    settings: &Settings,
    slot: u32,
) -> Result<Loadable, Refusal> {
    let partitions = accept(list, flash, otadata, settings)?;
    test_slot(&partitions, slot)?;
    let image = test_app(&partitions, flash, settings, slot)?.loadable();
    let active = active_of(otadata);
    test_not_pending(active, settings)?;

    let n = partitions.n();
    let (sequence, number) = match active {
        Some((_, record)) if record.slot(n) == slot => return Ok(image),
        Some((number, record)) => (next_naming(record.sequence, slot, n)?, 1 - number),
        None => (slot + 1, 0),
    };
    let state = if settings.rollback { State::New } else { State::Undefined };
    rewrite_in(otadata, number, &Record { sequence, label: [0xFF; LABEL_SIZE], state });
    Ok(image)
}

/// The smallest sequence above `sequence` that names `slot` of n.
pub fn next_naming(sequence: u32, slot: u32, n: u32) -> Result<u32, Refusal> {
    let above = u64::from(sequence) + 1;
    let next = (above..).find(|s| (s - 1) % u64::from(n) == u64::from(slot)).expect("one of n in a row");
    u32::try_from(next).ok().filter(|s| *s <= HIGHEST_SEQUENCE).ok_or(Refusal::SequenceEnd)
}

/// The reply of mark-valid: the register to burn, and the running app's image.
#[derive(Clone, Copy, PartialEq, Eq, Debug)]
pub struct Marked {
    pub efuse: u32,
    pub image: Loadable,
}

/// Marks the running app's record valid; the register is to be burned after that.
pub fn mark_valid(
    list: &[u32],
    flash: &[u8],
    otadata: &mut [u8],
    settings: &Settings,
    running: u32,
) -> Result<Marked, Refusal> {
    let partitions = accept(list, flash, otadata, settings)?;
    test_slot(&partitions, running)?;
    let (number, record) = test_running(&partitions, otadata, running)?;
    let facts = test_app(&partitions, flash, settings, running)?;
    if record.state != State::Valid {
        rewrite_in(otadata, number, &record.in_state(State::Valid));
    }
    let mut reply = Marked { efuse: settings.efuse, image: facts.loadable() };
    if settings.anti_rollback {
        reply.efuse = efuse_raise(settings.board.chip_id, settings.efuse, facts.version);
    }
    Ok(reply)
}

/// Marks the running app's record invalid, unless boot would then find nothing.
pub fn mark_invalid(
    list: &[u32],
    flash: &[u8],
    otadata: &mut [u8],
    settings: &Settings,
    running: u32,
) -> Result<(), Refusal> {
    let partitions = accept(list, flash, otadata, settings)?;
    test_slot(&partitions, running)?;
    let (number, record) = test_running(&partitions, otadata, running)?;
    let mut result = otadata.to_vec();
    rewrite_in(&mut result, number, &record.in_state(State::Invalid));
    if boot(list, flash, &mut result.clone(), settings).is_err() {
        return Err(Refusal::NoFallback);
    }
    otadata.copy_from_slice(&result);
    Ok(())
}

/// The state of a slot: the active record's if it names the slot, else that of the highest good record that does.
pub fn state_query(list: &[u32], flash: &[u8], otadata: &[u8], slot: u32) -> Result<State, Refusal> {
    let partitions = accept_node(list, flash, otadata)?;
    test_slot(&partitions, slot)?;
    let names = |record: &Record| record.slot(partitions.n()) == slot;
    if let Some((_, record)) = active_of(otadata).filter(|(_, record)| names(record)) {
        return Ok(record.state);
    }
    match readings(otadata).map(|reading| reading.filter(names)) {
        [Some(first), Some(second)] if second.sequence > first.sequence => Ok(second.state),
        [Some(first), _] => Ok(first.state),
        [None, Some(second)] => Ok(second.state),
        [None, None] => Err(Refusal::NotNamed),
    }
}

/// The slot that the next update goes into.
pub fn next_slot(
    list: &[u32],
    flash: &[u8],
    otadata: &[u8],
    settings: &Settings,
    running: App,
) -> Result<u32, Refusal> {
    let partitions = accept(list, flash, otadata, settings)?;
    if let App::Slot(slot) = running {
        test_slot(&partitions, slot)?;
    }
    test_not_pending(active_of(otadata), settings)?;
    Ok(match running {
        App::Factory => 0,
        App::Slot(slot) => (slot + 1) % partitions.n(),
    })
}

/// The active record and its sector.
fn active_of(otadata: &[u8]) -> Option<(usize, Record)> {
    let readings = readings(otadata);
    let number = active(&readings)?;
    readings[number].map(|record| (number, record))
}

/// Test 4.
fn test_slot(partitions: &Partitions, slot: u32) -> Result<(), Refusal> {
    (slot < partitions.n()).then_some(()).ok_or(Refusal::NoSuchSlot)
}

/// Test 8 of the marks: the active record names the running slot.
fn test_running(partitions: &Partitions, otadata: &[u8], running: u32) -> Result<(usize, Record), Refusal> {
    active_of(otadata).filter(|(_, record)| record.slot(partitions.n()) == running).ok_or(Refusal::NotNamed)
}

/// Tests 5 and 6: the app's image, whose facts are given, then its version.
fn test_app(partitions: &Partitions, flash: &[u8], settings: &Settings, slot: u32) -> Result<Facts, Refusal> {
    let part = partitions.slots[slot as usize].clone();
    let facts = image::check(&flash[part], settings.board).map_err(Refusal::Image)?;
    if settings.too_old(facts.version) {
        return Err(Refusal::TooOld);
    }
    Ok(facts)
}

/// Test 11.
fn test_not_pending(active: Option<(usize, Record)>, settings: &Settings) -> Result<(), Refusal> {
    match active {
        Some((_, record)) if settings.rollback && record.state == State::Pending => Err(Refusal::Pending),
        _ => Ok(()),
    }
}

#[cfg(test)]
mod tests {
    use super::*;
    use crate::generate::{limit_revisions, plain_loadable, plain_node, spoil_digest, two_sectors};
    use crate::record::make;
    use crate::refusal::ImageRefusal;
    use crate::settings::Board;

    const OFF: Settings =
        Settings { board: Board { chip_id: 0, revision: 301 }, efuse: 0, rollback: false, anti_rollback: false };
    const ROLLBACK: Settings = Settings { rollback: true, ..OFF };
    const ANTI: Settings = Settings { anti_rollback: true, ..ROLLBACK };

    fn record(sequence: u32, state: State) -> Option<[u8; 32]> {
        Some(make(sequence, &[0xFF; 20], state.word()).unwrap())
    }

    #[test]
    fn next_sequences() {
        assert_eq!(next_naming(5, 1, 2), Ok(6));
        assert_eq!(next_naming(4, 2, 3), Ok(6));
        assert_eq!(next_naming(4_294_967_293, 1, 2), Ok(4_294_967_294));
        assert_eq!(next_naming(4_294_967_294, 0, 2), Err(Refusal::SequenceEnd));
    }

    #[test]
    fn set_boot_writes_the_sector_that_is_not_active() {
        let (list, flash) = plain_node(&[Some(1), Some(2)], None);
        let mut otadata = two_sectors(record(5, State::Valid), record(4, State::Valid));
        assert_eq!(set_boot(&list, &flash, &mut otadata, &ROLLBACK, 0), Ok(plain_loadable(0)));
        assert_eq!(otadata, two_sectors(record(5, State::Valid), record(4, State::Valid)));
        assert_eq!(set_boot(&list, &flash, &mut otadata, &ROLLBACK, 1), Ok(plain_loadable(1)));
        assert_eq!(otadata, two_sectors(record(5, State::Valid), record(6, State::New)));
        let mut otadata = two_sectors(None, record(7, State::Invalid));
        assert_eq!(set_boot(&list, &flash, &mut otadata, &OFF, 1), Ok(plain_loadable(1)));
        assert_eq!(otadata, two_sectors(record(2, State::Undefined), record(7, State::Invalid)));
    }

    #[test]
    fn set_boot_refusals() {
        let (list, flash) = plain_node(&[Some(1), None], None);
        let mut otadata = two_sectors(record(4_294_967_294, State::Pending), None);
        let mut set = |settings, slot| set_boot(&list, &flash, &mut otadata, settings, slot);
        assert_eq!(set(&ANTI, 2), Err(Refusal::NoSuchSlot));
        assert_eq!(set(&ANTI, 1), Err(Refusal::Image(ImageRefusal { number: 21, place: 0 })));
        assert_eq!(set(&Settings { efuse: 3, ..ANTI }, 0), Err(Refusal::TooOld));
        assert_eq!(set(&ROLLBACK, 0), Err(Refusal::Pending));
        assert_eq!(set(&OFF, 0), Err(Refusal::SequenceEnd));
        assert_eq!(set(&Settings { rollback: false, ..ANTI }, 0), Err(Refusal::Settings));
    }

    #[test]
    fn marks() {
        let (list, flash) = plain_node(&[Some(1), Some(2)], None);
        let before = two_sectors(record(1, State::Valid), record(2, State::Pending));
        let mut otadata = before.clone();
        assert_eq!(mark_valid(&list, &flash, &mut otadata, &ANTI, 0), Err(Refusal::NotNamed));
        assert_eq!(otadata, before);
        let marked = Ok(Marked { efuse: 3, image: plain_loadable(1) });
        assert_eq!(mark_valid(&list, &flash, &mut otadata, &ANTI, 1), marked);
        assert_eq!(otadata, two_sectors(record(1, State::Valid), record(2, State::Valid)));
        assert_eq!(mark_valid(&list, &flash, &mut otadata, &ANTI, 1), marked);
        assert_eq!(otadata, two_sectors(record(1, State::Valid), record(2, State::Valid)));
        assert_eq!(mark_invalid(&list, &flash, &mut otadata, &ANTI, 1), Ok(()));
        assert_eq!(otadata, two_sectors(record(1, State::Valid), record(2, State::Invalid)));
        assert_eq!(mark_invalid(&list, &flash, &mut otadata, &ANTI, 0), Err(Refusal::NoFallback));
        assert_eq!(otadata, two_sectors(record(1, State::Valid), record(2, State::Invalid)));
    }

    /// Slot 1 runs on revision 302 and later alone, which the board, of 301, is not.
    #[test]
    fn an_app_for_another_revision() {
        let (list, mut flash) = plain_node(&[Some(1), Some(2)], None);
        limit_revisions(&mut flash[0x1_0000..], 302, 0);
        let later = Settings { board: Board { revision: 302, ..ROLLBACK.board }, ..ROLLBACK };
        let refused = Refusal::Image(ImageRefusal { number: 31, place: 15 });

        let before = two_sectors(record(1, State::Valid), record(2, State::Pending));
        let mut otadata = before.clone();
        assert_eq!(mark_valid(&list, &flash, &mut otadata, &ROLLBACK, 1), Err(refused));
        assert_eq!(set_boot(&list, &flash, &mut otadata, &ROLLBACK, 1), Err(refused));
        assert_eq!(otadata, before);
        assert_eq!(
            mark_valid(&list, &flash, &mut otadata, &later, 1).map(|marked| marked.image),
            Ok(plain_loadable(1))
        );
        assert_eq!(set_boot(&list, &flash, &mut otadata, &later, 1), Ok(plain_loadable(1)));

        let before = two_sectors(record(3, State::Valid), record(2, State::Valid));
        let mut otadata = before.clone();
        assert_eq!(mark_invalid(&list, &flash, &mut otadata, &ROLLBACK, 0), Err(Refusal::NoFallback));
        assert_eq!(otadata, before);
        assert_eq!(mark_invalid(&list, &flash, &mut otadata, &later, 0), Ok(()));
        assert_eq!(otadata, two_sectors(record(3, State::Invalid), record(2, State::Valid)));
    }

    /// The digest of slot 1's app is wrong.
    #[test]
    fn an_app_with_a_wrong_digest() {
        let (list, mut flash) = plain_node(&[Some(1), Some(2)], None);
        spoil_digest(&mut flash[0x1_0000..]);
        let refused = Refusal::Image(ImageRefusal { number: 30, place: 320 });

        let before = two_sectors(record(1, State::Valid), record(2, State::Pending));
        let mut otadata = before.clone();
        assert_eq!(mark_valid(&list, &flash, &mut otadata, &ROLLBACK, 1), Err(refused));
        assert_eq!(set_boot(&list, &flash, &mut otadata, &ROLLBACK, 1), Err(refused));
        assert_eq!(otadata, before);
        let before = two_sectors(record(3, State::Valid), record(2, State::Valid));
        let mut otadata = before.clone();
        assert_eq!(mark_invalid(&list, &flash, &mut otadata, &ROLLBACK, 0), Err(Refusal::NoFallback));
        assert_eq!(otadata, before);
    }

    /// Set-boot that writes and of a slot that is named already; mark-valid that writes and of a record that was valid.
    #[test]
    fn each_reply_gives_the_image() {
        let (list, flash) = plain_node(&[Some(1), Some(2), Some(3)], None);
        let images = [(304, 0x4008_0000), (352, 0x410A_0304), (336, 0x420C_0608)];
        for ((length, entry), slot) in images.into_iter().zip(0..) {
            let image = Loadable { length, entry };
            for active in 1..=3 {
                let mut otadata = two_sectors(None, record(active, State::Valid));
                assert_eq!(set_boot(&list, &flash, &mut otadata, &ROLLBACK, slot), Ok(image));
            }
            for state in [State::Pending, State::Valid] {
                let mut otadata = two_sectors(record(slot + 1, state), None);
                let marked = Marked { efuse: 0, image };
                assert_eq!(mark_valid(&list, &flash, &mut otadata, &ROLLBACK, slot), Ok(marked));
            }
        }
    }

    #[test]
    fn queries() {
        let (list, flash) = plain_node(&[Some(1), Some(2)], None);
        let otadata = two_sectors(record(1, State::Valid), record(3, State::Invalid));
        assert_eq!(state_query(&list, &flash, &otadata, 0), Ok(State::Valid));
        assert_eq!(state_query(&list, &flash, &otadata, 1), Err(Refusal::NotNamed));
        let otadata = two_sectors(record(3, State::Aborted), record(3, State::Invalid));
        assert_eq!(state_query(&list, &flash, &otadata, 0), Ok(State::Aborted));
    }

    #[test]
    fn next_slots() {
        let (list, flash) = plain_node(&[Some(1), Some(2)], None);
        let otadata = two_sectors(record(2, State::Pending), None);
        let next = |settings, running| next_slot(&list, &flash, &otadata, settings, running);
        assert_eq!(next(&OFF, App::Slot(0)), Ok(1));
        assert_eq!(next(&OFF, App::Slot(1)), Ok(0));
        assert_eq!(next(&OFF, App::Factory), Ok(0));
        assert_eq!(next(&ROLLBACK, App::Slot(2)), Err(Refusal::NoSuchSlot));
        assert_eq!(next(&ROLLBACK, App::Factory), Err(Refusal::Pending));
    }
}
