//! Inputs from a seeded generator: numbers where the designs change their ways, and any others.

use crate::meaning::designs::{DESIGNS, power};
use crate::meaning::products::{WIDTHS, range};

/// Splitmix64.
pub struct Random(pub u64);

impl Random {
    pub fn any(&mut self) -> u64 {
        self.0 = self.0.wrapping_add(0x9E37_79B9_7F4A_7C15);
        let z = (self.0 ^ (self.0 >> 30)).wrapping_mul(0xBF58_476D_1CE4_E5B9);
        let z = (z ^ (z >> 27)).wrapping_mul(0x94D0_49BB_1331_11EB);
        z ^ (z >> 31)
    }

    /// A number below a limit that is not 0.
    pub fn below(&mut self, limit: u64) -> u64 {
        self.any() % limit
    }

    /// A length or a place below a limit that is not 0.
    pub fn size(&mut self, limit: usize) -> usize {
        self.below(limit as u64) as usize
    }

    /// True once in so many times.
    pub fn once_in(&mut self, times: u64) -> bool {
        self.below(times) == 0
    }

    pub fn pick<T: Copy>(&mut self, list: &[T]) -> T {
        list[self.size(list.len())]
    }

    /// Any number, with any number of bits.
    pub fn wild_number(&mut self) -> u32 {
        self.any() as u32 >> self.below(32)
    }

    /// A magnitude of about so many bits, often at or beside a power of two, three times one, or the end of the range.
    pub fn magnitude(&mut self, bits: u32) -> i128 {
        let k = self.below(u64::from(bits) + 1) as u32;
        let beside = self.below(3) as i128 - 1;
        match self.below(8) {
            0 => self.below(4) as i128,
            1 => power(k) + beside,
            2 => 3 * power(k.saturating_sub(2)) + beside,
            3 => 3 * power(k.saturating_sub(2)),
            4 => power(bits) - 1 - self.below(3) as i128,
            _ => i128::from(self.any()) % power(k),
        }
    }

    /// An operand for a product of that width, at times outside it, as a wide number.
    pub fn operand(&mut self, signed: bool, width: u32) -> i128 {
        let (low, high) = range(signed, width);
        let (least, most) = if signed { (i128::from(i64::MIN), i128::from(i64::MAX)) } else { (0, i128::from(u64::MAX)) };
        let sign = if signed && self.once_in(2) { -1 } else { 1 };
        let operand = match self.below(32) {
            0 => self.pick(&[low - 1, high + 1, high + 2, low, high, least, most]),
            1 => sign * i128::from(self.any()),
            _ => sign * self.magnitude(if signed { width - 1 } else { width }),
        };
        operand.clamp(least, most)
    }

    /// A weight or a number of a frame.
    pub fn sample(&mut self) -> i16 {
        match self.below(16) {
            0 => 0,
            1 => self.pick(&[i16::MIN, i16::MAX, i16::MIN + 1, 1, -1]),
            2 => self.any() as i16,
            _ => self.operand(true, 16) as i16,
        }
    }

    /// A design's number, mostly a known one.
    pub fn design(&mut self) -> u32 {
        match self.below(16) {
            0 => self.pick(&[0, 6, 7, 255, 256, 257, 1 << 16, (1 << 16) + 1, 1 << 31, u32::MAX]),
            1 => self.wild_number(),
            _ => self.below(u64::from(*DESIGNS.end())) as u32 + 1,
        }
    }

    /// A width's number of bits, mostly a known one.
    pub fn width(&mut self) -> u32 {
        match self.below(16) {
            0 => self.pick(&[0, 1, 7, 9, 10, 11, 13, 15, 17, 24, 31, 33, 64, 128, 256, 264, 1 << 31, u32::MAX]),
            1 => self.wild_number(),
            _ => self.pick(&WIDTHS),
        }
    }

    /// A setting, mostly one that the design takes at the width.
    pub fn setting(&mut self, design: u32, width: u32) -> u32 {
        let width = width.clamp(1, 64);
        match (self.below(16), design) {
            (0, _) => self.pick(&[0, 1, width - 1, width, width + 1, 256, 257, u32::MAX]),
            (1, _) => self.wild_number(),
            (_, 1 | 2) => 0,
            _ => self.below(u64::from(width)) as u32 + 1,
        }
    }

    /// A slice of samples.
    pub fn samples(&mut self, length: usize) -> Vec<i16> {
        (0..length).map(|_| self.sample()).collect()
    }
}
