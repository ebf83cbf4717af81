//! What a manager replies.
use uuid::Uuid;

#[derive(Debug)]
pub enum Reply {
    Ready(u32),
    Handed(Vec<(Uuid, Vec<u8>)>),
    Few(u32),
    Unknown(usize),
    Repeated(usize),
    AlreadyHanded(usize),
}
