//! Names, numbers, lanes and limits.

pub type NodeNo = u8;
pub type LinkNo = u8;
pub type SaeNo = u8;

pub const MAX_NODES: usize = 16;
pub const MAX_LINKS: usize = 32;
pub const MAX_SAES: usize = 256;
pub const MAX_ROUTE_NODES: usize = 9;
pub const BLOCK: usize = 1024;
pub const BLOCKS_PER_LINK: u32 = 1024;
pub const POOL_LIMIT: usize = 4096;
pub const LEASE_SIZE: u64 = 4096;
pub const REPEATS_PER_TICK: usize = 16;
pub const RESEND_AGE: u64 = 4;
pub const JOURNAL_LIMIT: u64 = 33_554_432;

#[derive(Clone, Copy, PartialEq, Eq, Debug)]
pub enum Way {
    Up,
    Down,
}

impl Way {
    pub fn text(self) -> &'static str {
        match self {
            Way::Up => "up",
            Way::Down => "down",
        }
    }
}

/// Up goes from the lower node number to the higher.
#[derive(Clone, Copy, PartialEq, Eq, Debug)]
pub struct Lane {
    pub link: LinkNo,
    pub way: Way,
}

impl Lane {
    /// The lane's place in a list of all lanes: up of link l at 2l, down at 2l + 1.
    pub fn place(self) -> usize {
        2 * usize::from(self.link) + self.way as usize
    }

    pub fn at(place: usize) -> Lane {
        let way = if place.is_multiple_of(2) {
            Way::Up
        } else {
            Way::Down
        };
        Lane {
            link: (place / 2) as LinkNo,
            way,
        }
    }
}

#[derive(Clone, Copy, PartialEq, Eq, Debug)]
pub enum NameKind {
    Key,
    Stream,
    Note,
}

/// A KeyName in one word: the node in bits 52 to 55, the kind in bits 48 to 51, the count below.
/// The words have the order of the names' octets.
#[derive(Clone, Copy, PartialEq, Eq, PartialOrd, Ord, Debug)]
pub struct KeyName(u64);

const COUNT_MASK: u64 = (1 << 48) - 1;

impl KeyName {
    pub fn new(node: NodeNo, kind: NameKind, count: u64) -> Option<KeyName> {
        (count != 0 && count <= COUNT_MASK)
            .then(|| KeyName(u64::from(node) << 52 | (kind as u64) << 48 | count))
    }

    pub fn node(self) -> NodeNo {
        (self.0 >> 52) as NodeNo
    }

    pub fn kind(self) -> NameKind {
        match self.0 >> 48 & 15 {
            0 => NameKind::Key,
            1 => NameKind::Stream,
            _ => NameKind::Note,
        }
    }

    pub fn count(self) -> u64 {
        self.0 & COUNT_MASK
    }

    pub fn to_octets(self) -> [u8; 16] {
        let mut out = [0; 16];
        out[6] = 0x80;
        out[7] = self.node();
        out[8] = 0x80;
        out[9] = self.kind() as u8;
        out[10..].copy_from_slice(&self.0.to_be_bytes()[2..]);
        out
    }

    pub fn from_octets(octets: &[u8; 16]) -> Option<KeyName> {
        if octets[..6] != [0; 6] || octets[6] != 0x80 || octets[7] > 15 || octets[8] != 0x80 {
            return None;
        }
        let kind = match octets[9] {
            0 => NameKind::Key,
            1 => NameKind::Stream,
            2 => NameKind::Note,
            _ => return None,
        };
        let count = octets[10..].iter().fold(0, |n, &o| n << 8 | u64::from(o));
        KeyName::new(octets[7], kind, count)
    }

    /// The short name of a record: 16 times the kind plus the node, then the count.
    pub fn to_short(self) -> [u8; 7] {
        let mut out = [0; 7];
        out[0] = 16 * self.kind() as u8 + self.node();
        out[1..].copy_from_slice(&self.0.to_be_bytes()[2..]);
        out
    }

    /// The hyphenated text in lower case.
    pub fn from_text(text: &str) -> Option<KeyName> {
        let text = text.as_bytes();
        if text.len() != 36 {
            return None;
        }
        let mut octets = [0u8; 16];
        let mut digits = 0;
        for (i, &c) in text.iter().enumerate() {
            if matches!(i, 8 | 13 | 18 | 23) {
                if c != b'-' {
                    return None;
                }
                continue;
            }
            let digit = match c {
                b'0'..=b'9' => c - b'0',
                b'a'..=b'f' => c - b'a' + 10,
                _ => return None,
            };
            octets[digits / 2] = octets[digits / 2] << 4 | digit;
            digits += 1;
        }
        KeyName::from_octets(&octets)
    }
}
