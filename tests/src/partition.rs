//! The partition list: its rules, and the part of the flash that an app's entry names.

use crate::refusal::Refusal;
use std::ops::Range;

pub const FLASH_MAX: usize = 16_777_216;
pub const SLOTS_MIN: usize = 2;
pub const SLOTS_MAX: usize = 16;
const FACTORY: u32 = 0;
const SLOT_0: u32 = 16;
const OFFSET_UNIT: u64 = 65_536;
const SIZE_UNIT: u64 = 4_096;

/// A list that keeps the rules: each app's part of the flash.
#[derive(Clone, PartialEq, Eq, Debug)]
pub struct Partitions {
    pub factory: Option<Range<usize>>,
    pub slots: Vec<Range<usize>>,
}

impl Partitions {
    /// The number of slots, n.
    pub fn n(&self) -> u32 {
        self.slots.len() as u32
    }
}

/// Tests a list of triples of subtype, offset and size against a flash of `flash_len` bytes.
pub fn check(list: &[u32], flash_len: usize) -> Result<Partitions, Refusal> {
    if flash_len > FLASH_MAX || !list.len().is_multiple_of(3) {
        return Err(Refusal::List);
    }
    let mut factory = None;
    let mut slots = [const { None }; SLOTS_MAX];
    let mut parts: Vec<Range<u64>> = Vec::with_capacity(list.len() / 3);
    for entry in list.chunks_exact(3) {
        let (subtype, offset, size) = (entry[0], u64::from(entry[1]), u64::from(entry[2]));
        let end = offset + size;
        let aligned = offset.is_multiple_of(OFFSET_UNIT) && size.is_multiple_of(SIZE_UNIT);
        if !aligned || size == 0 || end > flash_len as u64 {
            return Err(Refusal::List);
        }
        if parts.iter().any(|part| offset < part.end && part.start < end) {
            return Err(Refusal::List);
        }
        parts.push(offset..end);
        let place = match subtype {
            FACTORY => &mut factory,
            _ => subtype.checked_sub(SLOT_0).and_then(|slot| slots.get_mut(slot as usize)).ok_or(Refusal::List)?,
        };
        if place.replace(offset as usize..end as usize).is_some() {
            return Err(Refusal::List);
        }
    }
    let n = slots.iter().flatten().count();
    let gap = slots[..n].iter().any(Option::is_none);
    if n < SLOTS_MIN || gap {
        return Err(Refusal::List);
    }
    Ok(Partitions { factory, slots: slots.into_iter().flatten().collect() })
}

#[cfg(test)]
mod tests {
    use super::*;

    /// Room for eighteen entries, each at a multiple of 65,536.
    const FLASH: usize = 0x12_0000;

    #[test]
    fn a_good_list() {
        let list = [17, 0x2_0000, 0x1000, 0, 0, 0x1_0000, 16, 0x1_0000, 0x1_0000];
        let partitions = check(&list, FLASH).unwrap();
        assert_eq!(partitions.factory, Some(0..0x1_0000));
        assert_eq!(partitions.slots, [0x1_0000..0x2_0000, 0x2_0000..0x2_1000]);
        assert!(check(&list, 0x2_1000).is_ok());
        assert_eq!(check(&list, 0x2_0FFF), Err(Refusal::List));
        assert!(check(&list, FLASH_MAX).is_ok());
        assert_eq!(check(&list, FLASH_MAX + 1), Err(Refusal::List));
    }

    /// Entries of these subtypes, one after the other.
    fn entries(subtypes: &[u32]) -> Vec<u32> {
        subtypes.iter().zip(0..).flat_map(|(subtype, block)| [*subtype, block * 0x1_0000, 0x1000]).collect()
    }

    #[test]
    fn each_number_of_slots() {
        for n in 2..=SLOTS_MAX as u32 {
            let slots: Vec<u32> = (16..16 + n).rev().collect();
            let with = |more: &[u32]| check(&entries(&[&slots[..], more].concat()), FLASH).map(|accepted| accepted.n());
            assert_eq!(with(&[]), Ok(n));
            assert_eq!(with(&[0]), Ok(n));
            // The first or the last slot twice, factory twice, a slot left out.
            for more in [&[16][..], &[15 + n], &[0, 0], &[17 + n]] {
                assert_eq!(with(more), Err(Refusal::List), "{n} slots and {more:?}");
            }
        }
        let seventeen: Vec<u32> = (16..33).collect();
        assert_eq!(check(&entries(&seventeen), FLASH), Err(Refusal::List));
        assert_eq!(check(&entries(&[&[0], &seventeen[..]].concat()), FLASH), Err(Refusal::List));
        assert_eq!(check(&entries(&seventeen[1..]), FLASH), Err(Refusal::List));
    }

    #[test]
    fn each_rule_broken() {
        assert!(check(&entries(&[16, 17]), FLASH).is_ok());
        for subtypes in [
            &[][..],
            &[0],
            &[0, 16],
            &[16, 18],
            &[17, 18],
            &[16, 17, 17],
            &[0, 0, 16, 17],
            &[16, 17, 1],
            &[16, 17, 15],
            &[16, 17, 32],
        ] {
            assert_eq!(check(&entries(subtypes), FLASH), Err(Refusal::List), "{subtypes:?}");
        }
        let good = entries(&[16, 17]);
        assert_eq!(check(&good[..5], FLASH), Err(Refusal::List));
        for (place, word) in [(1, 0x1000), (1, 0x1_0000), (2, 0), (2, 0x1001), (2, 0x1_1000), (4, 0xFFFF_0000)] {
            let mut list = good.clone();
            list[place] = word;
            assert_eq!(check(&list, FLASH), Err(Refusal::List), "{list:x?}");
        }
    }
}
