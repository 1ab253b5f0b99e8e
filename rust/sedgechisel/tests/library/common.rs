//! What several tests need.

/// The octets that hexadecimal digits spell.
pub fn octets_of(digits: &str) -> Vec<u8> {
    let digit = |it: u8| char::from(it).to_digit(16).expect("a hexadecimal digit") as u8;
    digits.as_bytes().chunks_exact(2).map(|it| digit(it[0]) << 4 | digit(it[1])).collect()
}

/// Random numbers (xorshift64*, Marsaglia and Vigna), the same in each run.
pub struct Chance(pub u64);

impl Chance {
    /// A number below the limit.
    pub fn below(&mut self, limit: u32) -> u32 {
        self.0 ^= self.0 >> 12;
        self.0 ^= self.0 << 25;
        self.0 ^= self.0 >> 27;
        (self.0.wrapping_mul(2_685_821_657_736_338_717) >> 33) as u32 % limit
    }

    /// Whether what happens once in so many times happens now.
    pub fn once_in(&mut self, times: u32) -> bool {
        self.below(times) == 0
    }

    pub fn octet(&mut self) -> u8 {
        self.below(256) as u8
    }

    pub fn octets(&mut self, count: u32) -> Vec<u8> {
        (0..count).map(|_| self.octet()).collect()
    }
}
