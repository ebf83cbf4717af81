//! The bytes of one link at one end: both lanes, block by block.

use crate::base::{BLOCK, Way};
use crate::field::{Form, HashKey};

/// The bytes of one lane and, from its first block on, its hash key.
#[derive(Default)]
pub struct LaneBytes {
    bytes: Vec<u8>,
    key: Option<HashKey>,
}

impl LaneBytes {
    pub fn take(&mut self, block: &[u8; BLOCK], form: Form) {
        if let (true, Some(first)) = (self.bytes.is_empty(), block.first_chunk()) {
            self.key = Some(HashKey::new(u64::from_be_bytes(*first), form));
        }
        self.bytes.extend_from_slice(block);
    }

    pub fn received(&self) -> u64 {
        self.bytes.len() as u64
    }

    /// The lane bytes from `offset`, or None where the range passes the bytes received.
    pub fn range(&self, offset: u64, length: usize) -> Option<&[u8]> {
        let start = usize::try_from(offset).ok()?;
        self.bytes.get(start..start.checked_add(length)?)
    }

    pub fn key(&self) -> Option<&HashKey> {
        self.key.as_ref()
    }
}

#[derive(Default)]
pub struct Segments {
    lanes: [LaneBytes; 2],
    blocks: u32,
}

impl Segments {
    /// The next block of the link: even ones extend the lane up, odd ones the lane down.
    pub fn take(&mut self, block: &[u8; BLOCK], form: Form) {
        self.lanes[self.blocks as usize % 2].take(block, form);
        self.blocks += 1;
    }

    pub fn blocks(&self) -> u32 {
        self.blocks
    }

    pub fn lane(&self, way: Way) -> &LaneBytes {
        &self.lanes[way as usize]
    }
}
