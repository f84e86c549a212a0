//! The checksum of an image or another file: that of POSIX, which `cksum` prints first.

/// The sum of some bytes, which covers their count too.
pub fn checksum(bytes: &[u8]) -> u32 {
    let mut sum = Checksum::default();
    sum.add(bytes);
    sum.end()
}

/// The sum of bytes that come part by part.
#[derive(Clone, Copy, Debug, Default)]
pub struct Checksum {
    sum: u32,
    count: u64,
}

impl Checksum {
    pub fn add(&mut self, bytes: &[u8]) {
        self.sum = bytes.iter().fold(self.sum, |sum, &byte| step(sum, byte));
        self.count += bytes.len() as u64;
    }

    pub fn end(self) -> u32 {
        let count = self.count.to_le_bytes();
        let used = count.iter().rposition(|&byte| byte != 0).map_or(0, |last| last + 1);
        !count[..used].iter().fold(self.sum, |sum, &byte| step(sum, byte))
    }
}

/// A byte divided by the polynomial of POSIX, the highest bit first.
fn step(sum: u32, byte: u8) -> u32 {
    (0..8).fold(sum ^ u32::from(byte) << 24, |sum, _| if sum >> 31 == 1 { sum << 1 ^ 0x04C1_1DB7 } else { sum << 1 })
}

#[cfg(test)]
mod tests {
    use super::{checksum, Checksum};

    /// As `cksum` prints them.
    #[test]
    fn as_cksum() {
        assert_eq!(checksum(b""), 4_294_967_295);
        assert_eq!(checksum(b"123456789"), 930_766_865);
        assert_eq!(checksum(&[0; 512]), 4_135_437_457);
        let mut sum = Checksum::default();
        sum.add(b"1234");
        sum.add(b"");
        sum.add(b"56789");
        assert_eq!(sum.end(), 930_766_865);
    }
}
