//! What a manager replies.
use crate::name::Name;

#[derive(Debug)]
pub enum Reply {
    Ready(u32),
    Handed(Vec<(Name, Vec<u8>)>),
    Few(u32),
    Unknown(usize),
    Repeated(usize),
    AlreadyHanded(usize),
}
