//! A record: the number of a part, and the arguments of its functions at fixed places, big-endian.

pub const SIZE: usize = 64;

#[derive(Clone, Copy)]
pub struct Record(pub [u8; SIZE]);

impl Record {
    pub fn new(part: u8) -> Self {
        let mut bytes = [0; SIZE];
        bytes[0] = part;
        Record(bytes)
    }

    pub fn with_u8(mut self, at: usize, n: u8) -> Self {
        self.0[at] = n;
        self
    }

    pub fn with_u32(mut self, at: usize, n: u32) -> Self {
        self.0[at..at + 4].copy_from_slice(&n.to_be_bytes());
        self
    }

    pub fn with_u64(mut self, at: usize, n: u64) -> Self {
        self.0[at..at + 8].copy_from_slice(&n.to_be_bytes());
        self
    }

    pub fn u8_at(&self, at: usize) -> u8 {
        self.0[at]
    }

    pub fn u32_at(&self, at: usize) -> u32 {
        u32::from_be_bytes(self.0[at..at + 4].try_into().unwrap())
    }

    pub fn u64_at(&self, at: usize) -> u64 {
        u64::from_be_bytes(self.0[at..at + 8].try_into().unwrap())
    }

    pub fn f32_at(&self, at: usize) -> f32 {
        f32::from_bits(self.u32_at(at))
    }
}
