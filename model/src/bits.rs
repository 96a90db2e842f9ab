//! Bits of a byte string, the highest of each byte first.

#[derive(Default)]
pub struct BitWriter {
    bytes: Vec<u8>,
    /// The last bits put, of which the lowest `waiting` are not yet in `bytes`.
    last: u64,
    waiting: u32,
}

impl BitWriter {
    /// Puts the lowest `width` bits of `value`, which has no higher ones; at most 32.
    pub fn put(&mut self, value: u32, width: u32) {
        self.last = self.last << width | u64::from(value);
        self.waiting += width;
        while self.waiting >= 8 {
            self.waiting -= 8;
            self.bytes.push((self.last >> self.waiting) as u8);
        }
    }

    /// The bytes, the last one filled with zero bits.
    pub fn finish(mut self) -> Vec<u8> {
        if self.waiting > 0 {
            self.put(0, 8 - self.waiting);
        }
        self.bytes
    }
}

pub struct BitReader<'p> {
    bytes: &'p [u8],
    position: usize,
}

impl<'p> BitReader<'p> {
    pub fn new(bytes: &'p [u8]) -> Self {
        BitReader { bytes, position: 0 }
    }

    pub fn position(&self) -> usize {
        self.position
    }

    pub fn left(&self) -> usize {
        self.bytes.len() * 8 - self.position
    }

    /// The next `width` bits, at most 32, or None if fewer are left.
    pub fn take(&mut self, width: u32) -> Option<u32> {
        if width as usize > self.left() {
            return None;
        }
        let end = self.position + width as usize;
        let mut value: u64 = 0;
        for &byte in &self.bytes[self.position / 8..end.div_ceil(8)] {
            value = value << 8 | u64::from(byte);
        }
        value >>= end.div_ceil(8) * 8 - end;
        self.position = end;
        Some((value & ((1 << width) - 1)) as u32)
    }
}
