//! An output that a call is lent, and what the program prints of it: enough to tell every byte of
//! it, those beyond the ones written too.

use crate::bytes::hex;

/// What each byte of an output is before a call.
const FILL: u8 = 0xEE;

pub struct Output(pub Vec<u8>);

/// Adler-32.
pub fn sum(bytes: &[u8]) -> u32 {
    const MODULUS: u32 = 65_521;
    let (mut low, mut high) = (1, 0);
    for &byte in bytes {
        low = (low + u32::from(byte)) % MODULUS;
        high = (high + low) % MODULUS;
    }
    high << 16 | low
}

impl Output {
    pub fn new(size: u32) -> Output {
        Output(vec![FILL; size as usize])
    }

    /// After a refusal, of which it must show that no byte has changed.
    pub fn whole_sum(&self) -> u32 {
        sum(&self.0)
    }

    /// The length written, the sums of what was written and of the rest, and the first on request.
    pub fn written(&self, length: usize, dump: bool) -> String {
        let (data, rest) = self.0.split_at(length);
        let said = format!("{} {} {}", length, sum(data), sum(rest));
        if dump {
            said + " " + &hex(data)
        } else {
            said
        }
    }
}

#[cfg(test)]
mod tests {
    use super::sum;

    #[test]
    fn known_sums() {
        assert_eq!(sum(b""), 1);
        assert_eq!(sum(b"Wikipedia"), 0x11E6_0398);
    }
}
