//! The minimum and the maximum revision of an image, and what must come up of them in a run.

use ota_tests::image::{MAXIMUM_PLACE, MINIMUM_PLACE};

/// How the revision lies to an image's minimum and maximum, by the number that the image gets. [`Limits::edges`] names them.
const EDGES: [(u32, &[&str]); 2] = [
    (
        0,
        &[
            "revision 0",
            "revision 65535",
            "minimum 0",
            "minimum equal",
            "minimum one below",
            "minimum below by its second byte",
            "maximum 0",
            "maximum 65535",
            "maximum equal",
            "maximum one above",
            "maximum above by its second byte",
            "minimum above maximum",
        ],
    ),
    (
        31,
        &[
            "revision 0",
            "revision 65535",
            "minimum 65535",
            "minimum one above",
            "minimum above by its second byte",
            "minimum above by its first byte",
            "maximum 0",
            "maximum 65535",
            "maximum 1",
            "maximum one below",
            "maximum below by its second byte",
            "maximum below by its first byte",
            "minimum above maximum",
            "below the minimum",
            "above the maximum",
            "below the minimum and above the maximum",
        ],
    ),
];

/// What must come up: every edge where the image is accepted or refused with 31, and 31 beside each other number.
pub fn to_be_met() -> Vec<String> {
    let mut things = Vec::new();
    for (number, edges) in EDGES {
        things.extend(edges.iter().map(|edge| format!("check_image: {number}, {edge}")));
    }
    things.extend((20..=23).map(|number| format!("check_image: {number} before 31")));
    things.extend((24..=30).map(|number| format!("check_image: 31 before {number}")));
    things
}

/// An image's minimum and maximum.
#[derive(Clone, Copy, Debug)]
pub struct Limits {
    minimum: u16,
    maximum: u16,
}

impl Limits {
    /// None where the image is too short to have them.
    pub fn of(image: &[u8]) -> Option<Limits> {
        let [a, b, c, d] = *image.get(MINIMUM_PLACE..MAXIMUM_PLACE + 2)?.first_chunk()?;
        Some(Limits { minimum: u16::from_le_bytes([a, b]), maximum: u16::from_le_bytes([c, d]) })
    }

    fn upper_limit(self) -> bool {
        ![0, 65_535].contains(&self.maximum)
    }

    fn above(self, revision: u16) -> bool {
        self.upper_limit() && revision > self.maximum
    }

    pub fn fit(self, revision: u16) -> bool {
        revision >= self.minimum && !self.above(revision)
    }

    /// How a revision lies to them.
    pub fn edges(self, revision: u16) -> impl Iterator<Item = &'static str> {
        let Limits { minimum, maximum } = self;
        let (below, above) = (revision < minimum, self.above(revision));
        let limited = self.upper_limit();
        let same_second = |field: u16| field >> 8 == revision >> 8;
        [
            ("revision 0", revision == 0),
            ("revision 65535", revision == 65_535),
            ("minimum 0", minimum == 0),
            ("minimum 65535", minimum == 65_535),
            ("minimum equal", minimum != 0 && minimum == revision),
            ("minimum one below", minimum != 0 && minimum < revision && minimum + 1 == revision),
            ("minimum one above", below && revision + 1 == minimum),
            ("minimum below by its second byte", !below && minimum & 0xFF > revision & 0xFF),
            ("minimum above by its second byte", below && minimum & 0xFF <= revision & 0xFF),
            ("minimum above by its first byte", below && same_second(minimum)),
            ("maximum 0", maximum == 0),
            ("maximum 1", maximum == 1),
            ("maximum 65535", maximum == 65_535),
            ("maximum equal", limited && maximum == revision),
            ("maximum one below", above && maximum + 1 == revision),
            ("maximum one above", limited && maximum - 1 == revision),
            ("maximum above by its second byte", limited && !above && maximum & 0xFF < revision & 0xFF),
            ("maximum below by its second byte", above && maximum & 0xFF >= revision & 0xFF),
            ("maximum below by its first byte", above && same_second(maximum)),
            ("minimum above maximum", minimum > maximum),
            ("below the minimum", below && !above),
            ("above the maximum", above && !below),
            ("below the minimum and above the maximum", below && above),
        ]
        .into_iter()
        .filter_map(|(edge, applies)| applies.then_some(edge))
    }
}
