//! The node's settings, and the eFuse version with its raising.

/// The board that an image must fit.
#[derive(Clone, Copy, PartialEq, Eq, Debug)]
pub struct Board {
    pub chip_id: u16,
    /// The chip's revision, major × 100 + minor.
    pub revision: u16,
}

/// The board, eFuse register, rollback and anti-rollback.
#[derive(Clone, Copy, PartialEq, Eq, Debug)]
pub struct Settings {
    pub board: Board,
    pub efuse: u32,
    pub rollback: bool,
    pub anti_rollback: bool,
}

impl Settings {
    /// Whether a secure version is below the eFuse version, with anti-rollback on.
    pub fn too_old(&self, version: u32) -> bool {
        self.anti_rollback && version < efuse_version(self.board.chip_id, self.efuse)
    }
}

/// How many bits of the register hold the version, the lowest ones: the ESP32, chip 0, has 32 and every other chip 16.
pub fn efuse_width(chip_id: u16) -> u32 {
    match chip_id {
        0 => 32,
        _ => 16,
    }
}

/// The eFuse version: the number of ones among the bits that hold it.
pub fn efuse_version(chip_id: u16, register: u32) -> u32 {
    (0..efuse_width(chip_id)).filter(|bit| register & (1 << bit) != 0).count() as u32
}

/// The register with the lowest clear bits of the version set until the count is `version`, or none is clear.
pub fn efuse_raise(chip_id: u16, register: u32, version: u32) -> u32 {
    let missing = version.saturating_sub(efuse_version(chip_id, register)) as usize;
    let clear = (0..efuse_width(chip_id)).filter(|bit| register & (1 << bit) == 0);
    clear.take(missing).fold(register, |raised, bit| raised | 1 << bit)
}

#[cfg(test)]
mod tests {
    use super::*;

    #[test]
    fn raising() {
        assert_eq!(efuse_version(0, 0x0B), 3);
        for (version, raised) in [(0, 0x0B), (3, 0x0B), (4, 0x0F), (5, 0x1F), (32, !0), (33, !0), (!0, !0)] {
            assert_eq!(efuse_raise(0, 0x0B, version), raised);
        }
        assert_eq!(efuse_raise(0, 0x8000_0000, 32), !0);
    }

    #[test]
    fn sixteen_bits() {
        for chip_id in [1, 5, 16, 0x0100, 0xFFFF] {
            assert_eq!(efuse_version(chip_id, 0xFFFF_0000), 0);
            assert_eq!(efuse_version(chip_id, !0), 16);
            assert_eq!(efuse_raise(chip_id, 0x0000_FFFF, 17), 0x0000_FFFF);
            assert_eq!(efuse_raise(chip_id, 0xFFFF_0000, 1), 0xFFFF_0001);
            assert_eq!(efuse_raise(chip_id, 0x0001_0100, 3), 0x0001_0103);
            assert_eq!(efuse_raise(chip_id, 0x8000_0000, !0), 0x8000_FFFF);
        }
    }
}
