//! The digest of an image, and what must come up of it in a run.

use ota_tests::generate::{Digest, DrawnImage, Unseen};

/// Every way of drawing a digest, right and wrong ones where the flag is 0, and each other number beside a right digest and beside a wrong one.
pub fn to_be_met() -> Vec<String> {
    let mut things = Vec::new();
    for digest in Digest::RIGHT.into_iter().chain(Digest::wrong()) {
        things.extend([true, false].map(|flag| alone(digest, flag)));
    }
    for number in (20..=29).chain([31]) {
        things.extend([true, false].map(|right| beside(number, right)));
    }
    things
}

/// What came up with an image that is drawn for its digest, and has that number.
pub fn met(drawn: &DrawnImage, number: u32) -> String {
    match number {
        0 | 30 => alone(drawn.digest, drawn.flag),
        number => beside(number, drawn.digest.is_right()),
    }
}

/// The number that an image gets that nothing else is wrong with.
pub fn number(digest: Digest, flag: bool) -> u32 {
    if flag && !digest.is_right() {
        30
    } else {
        0
    }
}

fn alone(digest: Digest, flag: bool) -> String {
    match flag {
        true => format!("check_image: {}, digest {}", number(digest, flag), name(digest)),
        false => format!("check_image: 0, flag 0, digest {}", if digest.is_right() { "right" } else { "wrong" }),
    }
}

fn beside(number: u32, right: bool) -> String {
    match right {
        true => format!("check_image: {number} beside a right digest"),
        false => format!("check_image: {number} before 30"),
    }
}

fn name(digest: Digest) -> String {
    let change = |change: Unseen| match change {
        Unseen::TwoDataBits => "two data bits that cancel",
        Unseen::Padding => "padding that is not zero",
        Unseen::Header => "a header byte that is not read",
    };
    match digest {
        Digest::Right => "right".into(),
        Digest::After(unseen) => format!("made after {}", change(unseen)),
        Digest::Before(unseen) => format!("made before {}", change(unseen)),
        Digest::OneByte(byte) => format!("wrong in byte {byte:02}"),
        Digest::TwoBytes => "wrong in one bit of two bytes".into(),
        Digest::AnyBytes => "any bytes".into(),
        Digest::WordsReversed => "with the bytes of each word reversed".into(),
        Digest::UpToTheEnd => "of the bytes up to e".into(),
        Digest::UpToTheChecksum => "of the bytes before the checksum".into(),
    }
}
