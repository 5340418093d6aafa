//! The two otadata sectors: what a sector reads as, the active record, and a rewrite, whole or one store at a time.

use crate::record::{Reading, Record, RECORD_SIZE};
use crate::refusal::Refusal;

pub const SECTOR_SIZE: usize = 4096;
pub const OTADATA_SIZE: usize = 2 * SECTOR_SIZE;
/// The stores of a rewrite: each byte erased, then each byte of the record programmed.
pub const STORES: usize = SECTOR_SIZE + RECORD_SIZE;

/// What a sector reads as: what its record does.
pub fn read(sector: &[u8]) -> Reading {
    if sector.len() != SECTOR_SIZE {
        return Reading::WrongSize;
    }
    Record::read(&sector[..RECORD_SIZE])
}

/// The good records of both sectors of otadata, by sector number.
pub fn readings(otadata: &[u8]) -> [Option<Record>; 2] {
    let (first, second) = otadata.split_at(SECTOR_SIZE);
    [read(first).good(), read(second).good()]
}

/// The sector that holds the active record: the usable one with the higher sequence, sector 0 on a tie.
pub fn active(readings: &[Option<Record>; 2]) -> Option<usize> {
    let usable = readings.map(|reading| reading.filter(Record::usable));
    match usable {
        [Some(first), Some(second)] if second.sequence > first.sequence => Some(1),
        [Some(_), _] => Some(0),
        [None, Some(_)] => Some(1),
        [None, None] => None,
    }
}

/// The active record's 32 bytes as a part of the sector that holds it, or an empty part.
pub fn active_record<'a>(first: &'a [u8], second: &'a [u8]) -> &'a [u8] {
    match active(&[read(first).good(), read(second).good()]) {
        Some(0) => &first[..RECORD_SIZE],
        Some(_) => &second[..RECORD_SIZE],
        None => &[],
    }
}

/// Store m of a rewrite: erases byte m, or from 4,096 on programs the record from its last byte down.
pub fn store(sector: &mut [u8], record: &[u8], m: usize) -> Result<(), Refusal> {
    if sector.len() != SECTOR_SIZE || record.len() != RECORD_SIZE {
        return Err(Refusal::Size);
    }
    if m >= STORES {
        return Err(Refusal::NoSuchStore);
    }
    if m < SECTOR_SIZE {
        sector[m] = 0xFF;
    } else {
        let byte = RECORD_SIZE - 1 - (m - SECTOR_SIZE);
        sector[byte] = record[byte];
    }
    Ok(())
}

/// A whole rewrite: every store, in order.
pub fn rewrite(sector: &mut [u8], record: &[u8]) -> Result<(), Refusal> {
    (0..STORES).try_for_each(|m| store(sector, record, m))
}

/// Rewrites sector `number` of otadata with a good record.
pub fn rewrite_in(otadata: &mut [u8], number: usize, record: &Record) {
    let sector = &mut otadata[number * SECTOR_SIZE..][..SECTOR_SIZE];
    rewrite(sector, &record.bytes()).expect("both sizes are right");
}

#[cfg(test)]
mod tests {
    use super::*;
    use crate::record::{make, State};

    fn sector_of(sequence: u32, state: State) -> Vec<u8> {
        let mut sector = vec![0xFF; SECTOR_SIZE];
        rewrite(&mut sector, &make(sequence, &[0xFF; 20], state.word()).unwrap()).unwrap();
        sector
    }

    #[test]
    fn the_active_record() {
        let blank = vec![0xFF; SECTOR_SIZE];
        let (four, five) = (sector_of(4, State::Valid), sector_of(5, State::Aborted));
        assert_eq!(active_record(&four, &five), &four[..32]);
        assert_eq!(active_record(&five, &four), &four[..32]);
        assert_eq!(active_record(&blank, &five), &[] as &[u8]);
        assert_eq!(active_record(&four[..4095], &four), &four[..32]);
        let good = |sector: &[u8]| read(sector).good();
        assert_eq!(active(&[good(&four), good(&four)]), Some(0));
        assert_eq!(active(&[good(&four), good(&sector_of(6, State::Pending))]), Some(1));
    }

    /// The first 32 bytes decide, and before them the size.
    #[test]
    fn readings_of_sectors() {
        for rest in [0xFF, 0x00] {
            let mut sector = vec![rest; SECTOR_SIZE];
            sector[..RECORD_SIZE].fill(0xFF);
            assert_eq!(read(&sector), Reading::Blank);
            sector[..RECORD_SIZE].copy_from_slice(&make(7, &[0x41; 20], State::New.word()).unwrap());
            assert_eq!(read(&sector), Record::read(&sector[..RECORD_SIZE]));
            assert_eq!(read(&sector).answer(), (0, [1, 7, 0]));
            sector[24] = 5;
            assert_eq!(read(&sector), Reading::BadState);
            sector[28] ^= 1;
            assert_eq!(read(&sector), Reading::BadCheck);
            sector[..4].fill(0);
            assert_eq!(read(&sector), Reading::BadSequence);
        }
        let four = sector_of(4, State::Valid);
        let longer = [&four[..], &[0xFF]].concat();
        for sector in [&four[..4095], &four[..32], &four[..0], &longer] {
            assert_eq!(read(sector), Reading::WrongSize);
        }
    }

    #[test]
    fn a_rewrite_leaves_the_record_and_erased_bytes() {
        let mut sector = vec![0x5A; SECTOR_SIZE];
        let record: Vec<u8> = (0..32).collect();
        rewrite(&mut sector, &record).unwrap();
        assert_eq!(sector[..32], record);
        assert!(sector[32..].iter().all(|byte| *byte == 0xFF));
    }

    #[test]
    fn refused_stores() {
        let mut sector = vec![0x5A; SECTOR_SIZE];
        assert_eq!(store(&mut sector, &[0; 32], STORES), Err(Refusal::NoSuchStore));
        assert_eq!(store(&mut sector, &[0; 31], STORES), Err(Refusal::Size));
        assert_eq!(store(&mut sector[1..], &[0; 32], 0), Err(Refusal::Size));
        assert_eq!(rewrite(&mut sector, &[0; 33]), Err(Refusal::Size));
        assert!(sector.iter().all(|byte| *byte == 0x5A));
    }
}
