//! The boot choice: tests 1 to 3, which app passes, which is chosen, and the marks that boot makes.

use crate::image::{self, Facts, Loadable};
use crate::partition::{self, Partitions};
use crate::record::{Record, State};
use crate::refusal::Refusal;
use crate::sector::{self, active, readings, OTADATA_SIZE};
use crate::settings::{efuse_raise, Settings};

#[derive(Clone, Copy, PartialEq, Eq, Debug)]
pub enum App {
    Factory,
    Slot(u32),
}

/// The reply of a boot: the app, the sector whose record it came through, the register to burn, and the app's image.
#[derive(Clone, Copy, PartialEq, Eq, Debug)]
pub struct Started {
    pub app: App,
    pub sector: Option<usize>,
    pub efuse: u32,
    pub image: Loadable,
}

/// Tests 1 and 2: the list and the flash's length, then the size of otadata.
pub fn accept_node(list: &[u32], flash: &[u8], otadata: &[u8]) -> Result<Partitions, Refusal> {
    let partitions = partition::check(list, flash.len())?;
    if otadata.len() != OTADATA_SIZE {
        return Err(Refusal::Size);
    }
    Ok(partitions)
}

/// Tests 1 to 3.
pub fn accept(list: &[u32], flash: &[u8], otadata: &[u8], settings: &Settings) -> Result<Partitions, Refusal> {
    let partitions = accept_node(list, flash, otadata)?;
    if settings.anti_rollback && (!settings.rollback || partitions.factory.is_some()) {
        return Err(Refusal::Settings);
    }
    Ok(partitions)
}

/// The facts of an app's image if the app passes: accepted, and with anti-rollback on not below the eFuse version.
pub fn passes(partitions: &Partitions, flash: &[u8], settings: &Settings, app: App) -> Option<Facts> {
    let part = match app {
        App::Factory => partitions.factory.clone()?,
        App::Slot(slot) => partitions.slots[slot as usize].clone(),
    };
    let facts = image::check(&flash[part], settings.board).ok()?;
    (!settings.too_old(facts.version)).then_some(facts)
}

pub fn boot(list: &[u32], flash: &[u8], otadata: &mut [u8], settings: &Settings) -> Result<Started, Refusal> {
    let partitions = accept(list, flash, otadata, settings)?;

    // Step 1: an app that was started on trial and never marked valid is given up.
    if settings.rollback {
        for (number, reading) in readings(otadata).into_iter().enumerate() {
            if let Some(record) = reading.filter(|record| record.state == State::Pending) {
                sector::rewrite_in(otadata, number, &record.in_state(State::Aborted));
            }
        }
    }

    // Steps 2 and 4.
    let readings = readings(otadata);
    let started = choose(&partitions, flash, settings, &readings).ok_or(Refusal::NothingBootable)?;

    // Step 3: a new app is started on trial.
    if let Some(number) = started.sector.filter(|_| settings.rollback) {
        if let Some(record) = readings[number].filter(|record| record.state == State::New) {
            sector::rewrite_in(otadata, number, &record.in_state(State::Pending));
        }
    }
    Ok(started)
}

/// The app that starts, by what the two sectors read as after step 1.
fn choose(
    partitions: &Partitions,
    flash: &[u8],
    settings: &Settings,
    readings: &[Option<Record>; 2],
) -> Option<Started> {
    let n = partitions.n();
    let passes = |app: App| passes(partitions, flash, settings, app);
    let started = |app: App, sector: Option<usize>, facts: Facts| Started {
        app,
        sector,
        efuse: settings.efuse,
        image: facts.loadable(),
    };

    // The active record's slot, then the other usable record's.
    if let Some(first) = active(readings) {
        for number in [first, 1 - first] {
            if let Some(record) = readings[number].filter(Record::usable) {
                let app = App::Slot(record.slot(n));
                if let Some(facts) = passes(app) {
                    return Some(started(app, Some(number), facts));
                }
            }
        }
    }
    if let Some(facts) = passes(App::Factory) {
        return Some(started(App::Factory, None, facts));
    }
    // The search: the first slot that no failed record names and that passes.
    let good = || readings.iter().flatten();
    for slot in 0..n {
        if good().any(|record| record.failed() && record.slot(n) == slot) {
            continue;
        }
        if let Some(facts) = passes(App::Slot(slot)) {
            let mut reply = started(App::Slot(slot), None, facts);
            if settings.anti_rollback && good().next().is_none() {
                reply.efuse = efuse_raise(settings.board.chip_id, settings.efuse, facts.version);
            }
            return Some(reply);
        }
    }
    None
}

#[cfg(test)]
mod tests {
    use super::*;
    use crate::generate::{limit_revisions, plain_loadable, plain_node, spoil_digest, two_sectors};
    use crate::record::make;
    use crate::settings::Board;

    fn record(sequence: u32, state: State) -> Option<[u8; 32]> {
        Some(make(sequence, &[0xFF; 20], state.word()).unwrap())
    }

    const OFF: Settings =
        Settings { board: Board { chip_id: 0, revision: 301 }, efuse: 0, rollback: false, anti_rollback: false };
    const ROLLBACK: Settings = Settings { rollback: true, ..OFF };

    fn start_of_slot(slot: u32, sector: Option<usize>) -> Started {
        Started { app: App::Slot(slot), sector, efuse: 0, image: plain_loadable(slot as usize) }
    }

    #[test]
    fn four_valid_and_five_aborted() {
        let (list, flash) = plain_node(&[None, Some(1)], None);
        let mut otadata = two_sectors(record(4, State::Valid), record(5, State::Aborted));
        let before = otadata.clone();
        assert_eq!(boot(&list, &flash, &mut otadata, &ROLLBACK), Ok(start_of_slot(1, Some(0))));
        assert_eq!(otadata, before);
    }

    #[test]
    fn a_new_app_has_one_trial() {
        let (list, flash) = plain_node(&[Some(1), Some(1)], None);
        let mut otadata = two_sectors(record(1, State::Valid), record(2, State::New));
        let started = |slot, sector| Ok(start_of_slot(slot, Some(sector)));
        assert_eq!(boot(&list, &flash, &mut otadata, &ROLLBACK), started(1, 1));
        assert_eq!(otadata, two_sectors(record(1, State::Valid), record(2, State::Pending)));
        assert_eq!(boot(&list, &flash, &mut otadata.clone(), &OFF), started(1, 1));
        assert_eq!(boot(&list, &flash, &mut otadata, &ROLLBACK), started(0, 0));
        assert_eq!(otadata, two_sectors(record(1, State::Valid), record(2, State::Aborted)));
    }

    #[test]
    fn nothing_bootable_keeps_the_aborted_marks() {
        let (list, flash) = plain_node(&[Some(1), None], None);
        let mut otadata = two_sectors(record(1, State::Pending), record(2, State::Invalid));
        assert_eq!(boot(&list, &flash, &mut otadata, &ROLLBACK), Err(Refusal::NothingBootable));
        assert_eq!(otadata, two_sectors(record(1, State::Aborted), record(2, State::Invalid)));
    }

    #[test]
    fn the_search_raises_the_register_without_good_records() {
        let settings = Settings { efuse: 0b1000, anti_rollback: true, ..ROLLBACK };
        let (list, flash) = plain_node(&[Some(0), Some(3)], None);
        let mut otadata = two_sectors(None, None);
        let started = Started { efuse: 0b1011, ..start_of_slot(1, None) };
        assert_eq!(boot(&list, &flash, &mut otadata, &settings), Ok(started));
        let mut otadata = two_sectors(record(1, State::Invalid), None);
        let started = Started { efuse: 0b1000, ..started };
        assert_eq!(boot(&list, &flash, &mut otadata, &settings), Ok(started));
    }

    /// Through the active record, through the other one, factory and the search: each gives the image that was checked.
    #[test]
    fn each_way_gives_its_image() {
        let (list, flash) = plain_node(&[Some(1), Some(1), None], Some(1));
        let (no_factory, slot_2) = plain_node(&[None, None, Some(1)], None);
        let (active, other) = (record(2, State::Valid), record(1, State::Valid));
        let erased = record(3, State::Valid);
        for (list, flash, first, second, app, sector, length, entry) in [
            (&list, &flash, active, other, App::Slot(1), Some(0), 352, 0x410A_0304),
            (&list, &flash, other, erased, App::Slot(0), Some(0), 304, 0x4008_0000),
            (&list, &flash, None, erased, App::Factory, None, 384, 0x430E_090C),
            (&no_factory, &slot_2, active, other, App::Slot(2), None, 336, 0x420C_0608),
        ] {
            let started = Started { app, sector, efuse: 0, image: Loadable { length, entry } };
            assert_eq!(boot(list, flash, &mut two_sectors(first, second), &ROLLBACK), Ok(started));
        }
    }

    /// Slot 2 is tried first, then slot 1, factory and slot 0; each runs on a lower revision than the one before.
    #[test]
    fn the_revision_decides_the_way() {
        let (list, mut flash) = plain_node(&[Some(1); 3], Some(1));
        for (block, minimum) in [300, 302, 303, 301].into_iter().enumerate() {
            limit_revisions(&mut flash[block * 0x1_0000..], minimum, 0);
        }
        let factory = Started { app: App::Factory, sector: None, efuse: 0, image: plain_loadable(3) };
        for (revision, state, expected) in [
            (303, State::Pending, Ok(start_of_slot(2, Some(1)))),
            (302, State::New, Ok(start_of_slot(1, Some(0)))),
            (301, State::New, Ok(factory)),
            (300, State::New, Ok(start_of_slot(0, None))),
            (299, State::New, Err(Refusal::NothingBootable)),
        ] {
            let mut otadata = two_sectors(record(2, State::Valid), record(3, State::New));
            let settings = Settings { board: Board { revision, ..ROLLBACK.board }, ..ROLLBACK };
            assert_eq!(boot(&list, &flash, &mut otadata, &settings), expected);
            assert_eq!(otadata, two_sectors(record(2, State::Valid), record(3, state)));
        }
    }

    /// Slot 1 and factory have a digest; where it is wrong, they are passed over.
    #[test]
    fn a_wrong_digest_is_passed_over() {
        let (list, flash) = plain_node(&[Some(1); 3], Some(1));
        let [mut wrong_slot, mut wrong_both] = [flash.clone(), flash.clone()];
        spoil_digest(&mut wrong_slot[0x1_0000..]);
        spoil_digest(&mut wrong_both[0x1_0000..]);
        spoil_digest(&mut wrong_both[3 * 0x1_0000..]);
        let factory = Started { app: App::Factory, sector: None, efuse: 0, image: plain_loadable(3) };
        for (flash, first, expected, state) in [
            (&flash, None, start_of_slot(1, Some(1)), State::Pending),
            (&wrong_slot, record(1, State::Valid), start_of_slot(0, Some(0)), State::New),
            (&wrong_slot, None, factory, State::New),
            (&wrong_both, None, start_of_slot(0, None), State::New),
            (&wrong_both, record(4, State::Invalid), start_of_slot(2, None), State::New),
        ] {
            let mut otadata = two_sectors(first, record(2, State::New));
            assert_eq!(boot(&list, flash, &mut otadata, &ROLLBACK), Ok(expected));
            assert_eq!(otadata, two_sectors(first, record(2, state)));
        }
    }
}
