//! Names of keys (UUIDs).
use std::fmt;

#[derive(Clone, Copy, Debug, PartialEq, Eq, Hash)]
pub struct Name(pub u128);

impl Name {
    /// The name of a node's key: the node in octets 6 and 7 behind the version, then the variant, the kind and the count.
    pub fn of_key(node: usize, count: u64) -> Self {
        Name((0x8000 | node as u128) << 64 | 0x80 << 56 | u128::from(count))
    }

    /// The name that a text of five groups of digits is.
    pub fn read(text: &str) -> Option<Self> {
        let octets = text.as_bytes();
        if octets.len() != 36 {
            return None;
        }
        let mut number = 0;
        for (place, &octet) in octets.iter().enumerate() {
            match place {
                8 | 13 | 18 | 23 if octet == b'-' => {}
                8 | 13 | 18 | 23 => return None,
                _ => number = number << 4 | u128::from((octet as char).to_digit(16)?),
            }
        }
        Some(Name(number))
    }
}

impl fmt::Display for Name {
    fn fmt(&self, f: &mut fmt::Formatter) -> fmt::Result {
        let Name(n) = *self;
        write!(f, "{:08x}-{:04x}-{:04x}-{:04x}-{:012x}", n >> 96, n >> 80 & 0xffff, n >> 64 & 0xffff, n >> 48 & 0xffff, n & 0xffff_ffff_ffff)
    }
}
