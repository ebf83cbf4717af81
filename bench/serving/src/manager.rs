//! A node's manager: its keys in maps, and nothing on a disk.
use crate::event::Event;
use crate::name::Name;
use crate::reply::Reply;
use crate::site::Sae;
use std::collections::{HashMap, VecDeque};

/// A key that a slave of this node may have.
struct Kept {
    master: Sae,
    slave: Sae,
    bytes: Vec<u8>,
    handed: bool,
}

#[derive(Default)]
pub struct Manager {
    /// The keys that masters of this node may have, of a pair and a size in bits, in order of name.
    ready: HashMap<(Sae, Sae, u16), VecDeque<(Name, Vec<u8>)>>,
    kept: HashMap<Name, Kept>,
}

impl Manager {
    pub fn make(&mut self, master: Sae, slave: Sae, bits: u16, name: Name, bytes: Vec<u8>) {
        self.ready.entry((master, slave, bits)).or_default().push_back((name, bytes));
    }

    pub fn keep(&mut self, master: Sae, slave: Sae, name: Name, bytes: Vec<u8>) {
        self.kept.insert(name, Kept { master, slave, bytes, handed: false });
    }

    pub fn ask(&mut self, event: &Event) -> Reply {
        match event {
            Event::Status { master, slave } => Reply::Ready(self.ready.get(&(*master, *slave, 256)).map_or(0, VecDeque::len) as u32),
            Event::Enc { master, slave, number, bits } => self.enc(*master, *slave, usize::from(*number), *bits),
            Event::Dec { slave, master, names } => self.dec(*slave, *master, names),
        }
    }

    fn enc(&mut self, master: Sae, slave: Sae, number: usize, bits: u16) -> Reply {
        match self.ready.get_mut(&(master, slave, bits)) {
            Some(keys) if keys.len() >= number => Reply::Handed(keys.drain(..number).collect()),
            keys => Reply::Few(keys.map_or(0, |keys| keys.len()) as u32),
        }
    }

    /// All named keys or none.
    fn dec(&mut self, slave: Sae, master: Sae, names: &[Name]) -> Reply {
        for (place, name) in names.iter().enumerate() {
            match self.kept.get(name) {
                Some(kept) if (kept.master, kept.slave) == (master, slave) => {
                    if names[..place].contains(name) {
                        return Reply::Repeated(place);
                    }
                    if kept.handed {
                        return Reply::AlreadyHanded(place);
                    }
                }
                _ => return Reply::Unknown(place),
            }
        }
        Reply::Handed(names.iter().filter_map(|name| self.hand(*name)).collect())
    }

    fn hand(&mut self, name: Name) -> Option<(Name, Vec<u8>)> {
        let kept = self.kept.get_mut(&name)?;
        kept.handed = true;
        Some((name, std::mem::take(&mut kept.bytes)))
    }
}
