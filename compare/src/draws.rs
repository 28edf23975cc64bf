//! Pseudo-random numbers and texts, the same in every run. Many of them lie at an edge: 0, 1, a band, the end of a type.

/// A generator that adds an odd constant and then mixes the bits.
pub struct Draws {
    state: u64,
}

const QUANTITIES: [u32; 24] = [
    0,
    1,
    2,
    9,
    10,
    11,
    19,
    20,
    33,
    34,
    99,
    100,
    101,
    999,
    1_000,
    3_000_000,
    99_999_999,
    100_000_000,
    100_000_001,
    1 << 31,
    (1 << 31) - 1,
    (1 << 31) + 1,
    u32::MAX - 1,
    u32::MAX,
];

const IMBALANCES: [i32; 13] = [
    0,
    1,
    -1,
    2,
    -2,
    100_000_000,
    -100_000_000,
    100_000_001,
    -100_000_001,
    i32::MAX,
    i32::MAX - 1,
    i32::MIN,
    i32::MIN + 1,
];

impl Draws {
    pub fn seeded(seed: u64) -> Draws {
        Draws { state: seed }
    }

    fn bits(&mut self) -> u64 {
        self.state = self.state.wrapping_add(0x9E37_79B9_7F4A_7C15);
        let x = (self.state ^ (self.state >> 30)).wrapping_mul(0xBF58_476D_1CE4_E5B9);
        let x = (x ^ (x >> 27)).wrapping_mul(0x94D0_49BB_1331_11EB);
        x ^ (x >> 31)
    }

    /// A number from 0 to `count - 1`.
    pub fn below(&mut self, count: u64) -> u64 {
        self.bits() % count
    }

    pub fn flag(&mut self) -> bool {
        self.below(2) == 1
    }

    pub fn byte(&mut self) -> u8 {
        self.below(256) as u8
    }

    pub fn one_of<T: Copy>(&mut self, items: &[T]) -> T {
        items[self.below(items.len() as u64) as usize]
    }

    /// A quantity that is not negative: at an edge, small, within the tariff's range, or any.
    pub fn quantity(&mut self) -> u32 {
        match self.below(4) {
            0 => self.one_of(&QUANTITIES),
            1 => self.below(3_000) as u32,
            2 => self.below(100_000_001) as u32,
            _ => self.bits() as u32,
        }
    }

    /// A quantity at most two away from one of `edges`, on either side of 0, or one as `quantity` draws it, with a sign.
    pub fn imbalance(&mut self, edges: &[i128]) -> i32 {
        match self.below(4) {
            0 => self.one_of(&IMBALANCES),
            1 => self.bits() as i32,
            2 => {
                let size = i64::from(self.quantity());
                let signed = if self.flag() { size } else { -size };
                signed.clamp(i32::MIN.into(), i32::MAX.into()) as i32
            }
            _ => {
                let edge = self.one_of(edges) + i128::from(self.below(5)) - 2;
                let signed = if self.flag() { edge } else { -edge };
                signed.clamp(i32::MIN.into(), i32::MAX.into()) as i32
            }
        }
    }

    /// A price: at an edge, within the tariff's range, or any.
    pub fn price(&mut self) -> u32 {
        match self.below(4) {
            0 => self.one_of(&[
                0,
                1,
                2,
                4_999,
                5_000,
                5_001,
                9_999,
                10_000,
                10_001,
                1_500_000_000,
                u32::MAX - 1,
                u32::MAX,
            ]),
            1 => self.below(100_000) as u32,
            2 => self.below(1_500_000_001) as u32,
            _ => self.bits() as u32,
        }
    }

    fn digits(&mut self, count: u64) -> Vec<u8> {
        (0..count).map(|_| b'0' + self.below(10) as u8).collect()
    }

    /// One to twelve digits, and perhaps a point and one to `places` digits behind it.
    pub fn amount(&mut self, places: u64) -> Vec<u8> {
        let count = 1 + self.below(12);
        let mut text = self.digits(count);
        if self.flag() {
            text.push(b'.');
            let count = 1 + self.below(places);
            text.extend(self.digits(count));
        }
        text
    }

    /// The text with one byte replaced, put in or taken out, cut off somewhere, or doubled. By chance it may still be an amount.
    pub fn damaged(&mut self, mut text: Vec<u8>) -> Vec<u8> {
        let at = self.below(text.len() as u64) as usize;
        let byte = match self.below(3) {
            0 => self.byte(),
            1 => self.one_of(b"0123456789"),
            _ => self.one_of(b".,-+ /:eE\n\0"),
        };
        match self.below(6) {
            0 => text[at] = byte,
            1 => text.insert(at, byte),
            2 => text.push(byte),
            3 => {
                text.remove(at);
            }
            4 => text.truncate(at),
            _ => text.extend_from_within(..),
        }
        text
    }
}
