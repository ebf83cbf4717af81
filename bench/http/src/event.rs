//! What a manager is asked.
use crate::site::Sae;
use uuid::Uuid;

#[derive(Debug)]
pub enum Event {
    Status { master: Sae, slave: Sae },
    Enc { master: Sae, slave: Sae, number: u16, bits: u16 },
    /// Keys that several slaves share.
    EncGroup { master: Sae, slaves: Vec<Sae>, number: u16, bits: u16 },
    Dec { slave: Sae, master: Sae, names: Vec<Uuid> },
}
