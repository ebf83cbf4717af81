//! What a manager is asked.
use crate::name::Name;
use crate::site::Sae;

#[derive(Debug)]
pub enum Event {
    Status { master: Sae, slave: Sae },
    Enc { master: Sae, slave: Sae, number: u16, bits: u16 },
    Dec { slave: Sae, master: Sae, names: Vec<Name> },
}
