//! Names of keys.
use uuid::Uuid;

/// The name of a node's key: the node in octets 6 and 7 behind the version, then the variant, the kind and the count.
pub fn key_name(node: usize, count: u64) -> Uuid {
    Uuid::from_u128((0x8000 | node as u128) << 64 | 0x80 << 56 | u128::from(count))
}
