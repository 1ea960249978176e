//! Random numbers that a seed and a request's index determine.

use crate::request::Rule;

pub struct Random {
    state: u64,
}

fn mixed(number: u64) -> u64 {
    let one = (number ^ (number >> 30)).wrapping_mul(0xBF58_476D_1CE4_E5B9);
    let two = (one ^ (one >> 27)).wrapping_mul(0x94D0_49BB_1331_11EB);
    two ^ (two >> 31)
}

impl Random {
    pub fn new(seed: u64, index: u64) -> Random {
        Random { state: mixed(seed.wrapping_add(0x9E37_79B9_7F4A_7C15)) ^ mixed(index.wrapping_add(0xD1B5_4A32_D192_ED03)) }
    }

    pub fn next(&mut self) -> u64 {
        self.state = self.state.wrapping_add(0x9E37_79B9_7F4A_7C15);
        mixed(self.state)
    }

    pub fn number(&mut self) -> u32 {
        self.next() as u32
    }

    pub fn below(&mut self, end: usize) -> usize {
        (((self.next() >> 32) * end as u64) >> 32) as usize
    }

    pub fn between(&mut self, least: usize, most: usize) -> usize {
        least + self.below(most - least + 1)
    }

    pub fn one_in(&mut self, times: usize) -> bool {
        self.below(times) == 0
    }

    pub fn pick<T: Copy>(&mut self, choices: &[T]) -> T {
        choices[self.below(choices.len())]
    }

    pub fn rule(&mut self) -> Rule {
        self.pick(&[Rule::Multiple, Rule::Gap])
    }

    pub fn octets(&mut self, count: usize) -> Vec<u8> {
        let mut octets = Vec::with_capacity(count + 8);
        while octets.len() < count {
            octets.extend_from_slice(&self.next().to_le_bytes());
        }
        octets.truncate(count);
        octets
    }

    /// A number that a field is likely to be treated wrongly for, near `usual` or at the ends of some width.
    pub fn lie(&mut self, usual: u64) -> u64 {
        match self.below(6) {
            0 => usual.wrapping_add(1),
            1 => usual.wrapping_sub(1),
            2 => usual.wrapping_add(self.between(2, 12) as u64),
            3 => usual.wrapping_sub(self.between(2, 12) as u64),
            4 => self.pick(&[
                0,
                1,
                2,
                3,
                4,
                8,
                0x7F,
                0x80,
                0xFF,
                0x100,
                0xFFFF,
                0x1_0000,
                0x7FFF_FFFF,
                0x8000_0000,
                0xFFFF_FFFC,
                0xFFFF_FFFF,
            ]),
            _ => self.next(),
        }
    }
}
