//! The otadata record: its check word, how it is made and read, when it is good and usable, why it isn't good, and the slot
//! that it names.

use crate::refusal::Refusal;

pub const RECORD_SIZE: usize = 32;
pub const LABEL_SIZE: usize = 20;
/// The highest sequence of a good record; the lowest is 1.
pub const HIGHEST_SEQUENCE: u32 = 4_294_967_294;

#[derive(Clone, Copy, PartialEq, Eq, Debug)]
pub enum State {
    New,
    Pending,
    Valid,
    Invalid,
    Aborted,
    Undefined,
}

impl State {
    pub const ALL: [State; 6] =
        [State::New, State::Pending, State::Valid, State::Invalid, State::Aborted, State::Undefined];

    pub fn word(self) -> u32 {
        match self {
            State::New => 0,
            State::Pending => 1,
            State::Valid => 2,
            State::Invalid => 3,
            State::Aborted => 4,
            State::Undefined => 0xFFFF_FFFF,
        }
    }

    pub fn from_word(word: u32) -> Option<State> {
        State::ALL.into_iter().find(|state| state.word() == word)
    }
}

/// A good record.
#[derive(Clone, Copy, PartialEq, Eq, Debug)]
pub struct Record {
    pub sequence: u32,
    pub label: [u8; LABEL_SIZE],
    pub state: State,
}

/// What bytes read as: the record if it is good, else why it isn't (document 02, order 7). The size is tested first; of the
/// other reasons the first that applies is given, in this order.
#[derive(Clone, Copy, PartialEq, Eq, Debug)]
pub enum Reading {
    Good(Record),
    /// 32 bytes 0xFF.
    Blank,
    BadSequence,
    BadCheck,
    BadState,
    WrongSize,
}

impl Reading {
    pub fn good(self) -> Option<Record> {
        match self {
            Reading::Good(record) => Some(record),
            _ => None,
        }
    }

    /// The number, and the three values: which reading it is, and the sequence and state word of a good record.
    pub fn answer(self) -> (u32, [u32; 3]) {
        match self {
            Reading::Good(record) => (0, [1, record.sequence, record.state.word()]),
            Reading::Blank => (0, [2, 0, 0]),
            Reading::BadSequence => (0, [3, 0, 0]),
            Reading::BadCheck => (0, [4, 0, 0]),
            Reading::BadState => (0, [5, 0, 0]),
            Reading::WrongSize => (Refusal::Size.number(), [0, 0, 0]),
        }
    }

    pub fn name(self) -> &'static str {
        match self {
            Reading::Good(_) => "good",
            Reading::Blank => "blank",
            Reading::BadSequence => "bad sequence",
            Reading::BadCheck => "bad check",
            Reading::BadState => "bad state",
            Reading::WrongSize => "wrong size",
        }
    }
}

impl Record {
    /// Reads the bytes of a record.
    pub fn read(bytes: &[u8]) -> Reading {
        if bytes.len() != RECORD_SIZE {
            return Reading::WrongSize;
        }
        if bytes.iter().all(|byte| *byte == 0xFF) {
            return Reading::Blank;
        }
        let sequence = word_at(bytes, 0);
        if !(1..=HIGHEST_SEQUENCE).contains(&sequence) {
            return Reading::BadSequence;
        }
        if word_at(bytes, 28) != check_word(sequence) {
            return Reading::BadCheck;
        }
        let label = bytes[4..24].try_into().unwrap();
        match State::from_word(word_at(bytes, 24)) {
            Some(state) => Reading::Good(Record { sequence, label, state }),
            None => Reading::BadState,
        }
    }

    pub fn bytes(&self) -> [u8; RECORD_SIZE] {
        raw_bytes(self.sequence, &self.label, self.state.word())
    }

    pub fn usable(&self) -> bool {
        !self.failed()
    }

    /// Marked invalid or aborted.
    pub fn failed(&self) -> bool {
        matches!(self.state, State::Invalid | State::Aborted)
    }

    /// The slot that the record names, of n.
    pub fn slot(&self, n: u32) -> u32 {
        (self.sequence - 1) % n
    }

    /// The record in another state; sequence and label stay.
    pub fn in_state(self, state: State) -> Record {
        Record { state, ..self }
    }
}

/// Makes a record from sequence, label and state word; refused where the result wouldn't be good.
pub fn make(sequence: u32, label: &[u8; LABEL_SIZE], state: u32) -> Result<[u8; RECORD_SIZE], Refusal> {
    let bytes = raw_bytes(sequence, label, state);
    Record::read(&bytes).good().map(|_| bytes).ok_or(Refusal::NotGood)
}

/// The 32 bytes of any fields, with the right check word.
pub fn raw_bytes(sequence: u32, label: &[u8; LABEL_SIZE], state: u32) -> [u8; RECORD_SIZE] {
    let mut bytes = [0; RECORD_SIZE];
    bytes[0..4].copy_from_slice(&sequence.to_le_bytes());
    bytes[4..24].copy_from_slice(label);
    bytes[24..28].copy_from_slice(&state.to_le_bytes());
    bytes[28..32].copy_from_slice(&check_word(sequence).to_le_bytes());
    bytes
}

/// The check word of a sequence: the CRC of its four bytes, register starting at 0, complemented.
pub fn check_word(sequence: u32) -> u32 {
    let register = sequence
        .to_le_bytes()
        .iter()
        .fold(0, |register: u32, byte| (register >> 8) ^ CRC_TABLE[((register ^ u32::from(*byte)) & 0xFF) as usize]);
    !register
}

/// For each byte, the register after its eight bits, low bit first.
const CRC_TABLE: [u32; 256] = {
    let mut table = [0; 256];
    let mut byte = 0;
    while byte < 256 {
        let mut register = byte as u32;
        let mut bit = 0;
        while bit < 8 {
            register = (register >> 1) ^ if register & 1 == 1 { 0xEDB8_8320 } else { 0 };
            bit += 1;
        }
        table[byte] = register;
        byte += 1;
    }
    table
};

/// The little-endian word at a place.
pub fn word_at(bytes: &[u8], place: usize) -> u32 {
    u32::from_le_bytes(bytes[place..place + 4].try_into().unwrap())
}

#[cfg(test)]
mod tests {
    use super::*;

    #[test]
    fn check_words() {
        assert_eq!(check_word(1), 0x4743_989A);
        assert_eq!(check_word(2), 0x55F6_3774);
    }

    #[test]
    fn sequence_1_undefined() {
        let mut bytes = [0xFF; RECORD_SIZE];
        bytes[..4].copy_from_slice(&[1, 0, 0, 0]);
        bytes[28..].copy_from_slice(&[0x9A, 0x98, 0x43, 0x47]);
        assert_eq!(make(1, &[0xFF; LABEL_SIZE], 0xFFFF_FFFF), Ok(bytes));
        let record = Record::read(&bytes).good().unwrap();
        assert_eq!(record.bytes(), bytes);
        assert_eq!((record.sequence, record.state, record.slot(2)), (1, State::Undefined, 0));
    }

    #[test]
    fn fields_that_make_no_good_record() {
        for (sequence, state) in [(0, 0), (0xFFFF_FFFF, 0), (1, 5), (1, 0xFFFF_FFFE)] {
            assert_eq!(make(sequence, &[0; LABEL_SIZE], state), Err(Refusal::NotGood));
        }
        assert!(make(HIGHEST_SEQUENCE, &[0; LABEL_SIZE], 4).is_ok());
    }

    #[test]
    fn the_check_word_covers_the_sequence_only() {
        let mut bytes = make(7, &[0xFF; LABEL_SIZE], State::New.word()).unwrap();
        bytes[24] = 2;
        bytes[4] = b'x';
        assert_eq!(Record::read(&bytes).good().unwrap().state, State::Valid);
        bytes[28] ^= 1;
        assert_eq!(Record::read(&bytes), Reading::BadCheck);
    }

    /// The first fault decides, whichever others there are.
    #[test]
    fn every_combination_of_faults() {
        for (sequence, bad_sequence) in [(1, false), (HIGHEST_SEQUENCE, false), (0, true), (0xFFFF_FFFF, true)] {
            for (check, bad_check) in [(0, false), (1, true), (0x8000_0000, true)] {
                for (state, bad_state) in [(2, false), (0xFFFF_FFFF, false), (5, true), (0xFFFF_FFFE, true)] {
                    for label in [[0xFF; LABEL_SIZE], [0x41; LABEL_SIZE]] {
                        let mut bytes = raw_bytes(sequence, &label, state);
                        bytes[28..].copy_from_slice(&(check_word(sequence) ^ check).to_le_bytes());
                        let expected = match (bad_sequence, bad_check, bad_state) {
                            (true, _, _) => Reading::BadSequence,
                            (false, true, _) => Reading::BadCheck,
                            (false, false, true) => Reading::BadState,
                            (false, false, false) => {
                                Reading::Good(Record { sequence, label, state: State::from_word(state).unwrap() })
                            }
                        };
                        assert_eq!(Record::read(&bytes), expected, "{bytes:x?}");
                    }
                }
            }
        }
    }

    /// Where one bit of a blank record is cleared, its sequence is bad, or it is another one with a wrong check word.
    #[test]
    fn blank_and_one_bit_less() {
        let blank = [0xFF; RECORD_SIZE];
        assert_eq!(Record::read(&blank), Reading::Blank);
        for bit in 0..8 * RECORD_SIZE {
            let mut bytes = blank;
            bytes[bit / 8] ^= 1 << (bit % 8);
            let expected = if bit < 32 { Reading::BadCheck } else { Reading::BadSequence };
            assert_eq!(Record::read(&bytes), expected, "bit {bit}");
        }
        assert_eq!(Record::read(&[0; RECORD_SIZE]), Reading::BadSequence);
    }

    #[test]
    fn the_size_comes_first() {
        for length in [0, 1, 28, 31, 33, 64] {
            for byte in [0xFF, 0] {
                assert_eq!(Record::read(&vec![byte; length]), Reading::WrongSize);
            }
        }
        let record = make(1, &[0xFF; LABEL_SIZE], 2).unwrap();
        assert_eq!(Record::read(&record[..31]), Reading::WrongSize);
        assert_eq!(Record::read(&[&record[..], &[0xFF]].concat()), Reading::WrongSize);
    }

    #[test]
    fn answers() {
        let record = Record { sequence: 7, label: [0; LABEL_SIZE], state: State::Undefined };
        assert_eq!(Record::read(&record.bytes()).answer(), (0, [1, 7, 0xFFFF_FFFF]));
        let reasons = [Reading::Blank, Reading::BadSequence, Reading::BadCheck, Reading::BadState];
        for (reason, value) in reasons.into_iter().zip(2..) {
            assert_eq!((reason.answer(), reason.good()), ((0, [value, 0, 0]), None));
        }
        assert_eq!((Reading::WrongSize.answer(), Reading::WrongSize.good()), ((2, [0; 3]), None));
    }
}
