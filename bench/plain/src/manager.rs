//! A manager: a node, its journal and its entropy.  Every event makes its records, appends them
//! to the journal as one batch, and folds them into the node.

use crate::base::{
    BLOCK, BLOCKS_PER_LINK, KeyName, Lane, LinkNo, NameKind, NodeNo, POOL_LIMIT, SaeNo,
};
use crate::chacha::Entropy;
use crate::disk::MemDisk;
use crate::field::Form;
use crate::frame::{self, OpenRefusal};
use crate::journal::{Journal, JournalFull};
use crate::node::{Node, Plan};
use crate::payload::{Fact, Kind, Payload, key_length};
use crate::records::{self, Record};
use crate::site::Site;

pub enum Refusal {
    LinkFull,
    NotAllowed,
    NoRoute,
    PoolFull,
    JournalFull { length: u64, need: u64 },
    NoFrame(u64),
    BadFrame(u32),
    WrongLane { link: u8, way: u8 },
    NoBits(u64),
    BadTag { given: u64, computed: u64 },
    Few(usize),
    Unknown(usize),
    Repeated(usize),
    Handed(usize),
}

impl From<JournalFull> for Refusal {
    fn from(full: JournalFull) -> Refusal {
        Refusal::JournalFull {
            length: full.length,
            need: full.need,
        }
    }
}

impl From<OpenRefusal> for Refusal {
    fn from(refusal: OpenRefusal) -> Refusal {
        match refusal {
            OpenRefusal::NotAFrame(place) | OpenRefusal::NotAPayload(place) => {
                Refusal::BadFrame(place)
            }
            OpenRefusal::WrongLane { link, way } => Refusal::WrongLane { link, way },
            OpenRefusal::NoBits(have) => Refusal::NoBits(have),
            OpenRefusal::BadTag { given, computed } => Refusal::BadTag { given, computed },
        }
    }
}

pub struct Heard {
    pub fresh: bool,
    pub kind: Kind,
    pub name: KeyName,
}

pub type Keys = Vec<(KeyName, Box<[u8]>)>;

pub struct Manager {
    me: NodeNo,
    pub node: Node,
    journal: Journal,
    entropy: Entropy,
}

impl Manager {
    pub fn new(site: &Site, me: NodeNo, form: Form) -> Manager {
        Manager {
            me,
            node: Node::new(site, me, form),
            journal: Journal::create(MemDisk::default()),
            entropy: Entropy::new(me),
        }
    }

    #[cfg(test)]
    pub fn disk(&self) -> &[u8] {
        self.journal.synced()
    }

    fn write(&mut self, batch: Vec<Record>) -> Result<(), Refusal> {
        self.journal
            .append(|out| records::spell_batch(&batch, out))?;
        for record in batch {
            self.node.apply(record);
        }
        Ok(())
    }

    /// The number of the next block of a link.
    pub fn next_block(&self, link: LinkNo) -> Result<u32, Refusal> {
        match self.node.segments(link).blocks() {
            BLOCKS_PER_LINK => Err(Refusal::LinkFull),
            number => Ok(number),
        }
    }

    pub fn block(&mut self, link: LinkNo, number: u32, bytes: &[u8; BLOCK]) -> Result<(), Refusal> {
        self.write(vec![Record::Block {
            link,
            number,
            bytes,
        }])
    }

    /// The name of the first key.
    pub fn fill(
        &mut self,
        site: &Site,
        up: u32,
        master: SaeNo,
        slave: SaeNo,
        bits: usize,
        count: usize,
    ) -> Result<KeyName, Refusal> {
        if !site.may(master, slave) || site.home(master) != self.me {
            return Err(Refusal::NotAllowed);
        }
        let route = site
            .route(up, self.me, site.home(slave))
            .ok_or(Refusal::NoRoute)?;
        if self.node.unhanded(master, slave, bits) + count > POOL_LIMIT {
            return Err(Refusal::PoolFull);
        }
        let octets = bits / 8;
        self.journal
            .check(records::learned_length(count, key_length(&route, octets)))?;
        let mut drawn = vec![0; count * octets];
        self.entropy.draw(&mut drawn);
        let batch = drawn
            .chunks_exact(octets)
            .enumerate()
            .map(|(i, bytes)| {
                let name = self.node.next_name(NameKind::Key, i as u64);
                Record::Learned(Fact::Key {
                    name,
                    master,
                    slave,
                    route,
                    bytes: bytes.into(),
                })
            })
            .collect();
        let first = self.node.next_name(NameKind::Key, 0);
        self.write(batch)?;
        Ok(first)
    }

    pub fn plan(&mut self, up: u32) -> Result<Plan, Refusal> {
        let plan = self.node.plan(up);
        if !plan.leases.is_empty() {
            self.write(
                plan.leases
                    .iter()
                    .map(|&(lane, end)| Record::Lease { lane, end })
                    .collect(),
            )?;
        }
        self.node.planned(&plan);
        Ok(plan)
    }

    pub fn heard(&mut self, lane: Lane, bytes: &[u8]) -> Result<Heard, Refusal> {
        let held = self.node.segments(lane.link).lane(lane.way);
        let (offset, payload) = frame::open(lane, bytes, held)?;
        match payload {
            Payload::Ack(name) => {
                let fresh = self.node.takes_ack(name, lane.link);
                if fresh {
                    self.write(vec![Record::Acked(name)])?;
                    self.node.cleared(name, lane.link);
                }
                Ok(Heard {
                    fresh,
                    kind: Kind::Ack,
                    name,
                })
            }
            Payload::Told(fact) => {
                let (name, kind) = (fact.name(), fact.kind());
                let fresh = !self.node.knows(name);
                if fresh {
                    let mut batch = Vec::with_capacity(2);
                    let note = self.stored_about(&fact);
                    batch.push(Record::Learned(fact));
                    batch.extend(note.map(Record::Learned));
                    self.write(batch)?;
                }
                self.node.heard(lane.link, offset, name);
                Ok(Heard { fresh, kind, name })
            }
        }
    }

    /// The note that the target of a key makes.
    fn stored_about(&self, fact: &Fact) -> Option<Fact> {
        match fact {
            Fact::Key { name, route, .. } if route.last() == self.me => Some(Fact::Stored {
                note: self.node.next_name(NameKind::Note, 0),
                about: *name,
                route: route.reversed(),
            }),
            _ => None,
        }
    }

    pub fn enc(
        &mut self,
        site: &Site,
        master: SaeNo,
        slave: SaeNo,
        count: usize,
        bits: usize,
    ) -> Result<Keys, Refusal> {
        if !site.may(master, slave) || site.home(master) != self.me {
            return Err(Refusal::NotAllowed);
        }
        let names = self
            .node
            .hand_master(master, slave, bits, count)
            .map_err(Refusal::Few)?;
        self.hand(&names, master)
    }

    pub fn dec(
        &mut self,
        site: &Site,
        slave: SaeNo,
        master: SaeNo,
        names: &[KeyName],
    ) -> Result<Keys, Refusal> {
        if !site.may(master, slave) || site.home(slave) != self.me {
            return Err(Refusal::NotAllowed);
        }
        for (place, name) in names.iter().enumerate() {
            if !self.node.arrived(*name, master, slave) {
                return Err(Refusal::Unknown(place));
            }
            if names[..place].contains(name) {
                return Err(Refusal::Repeated(place));
            }
            if self.node.is_handed(*name, slave) {
                return Err(Refusal::Handed(place));
            }
        }
        self.hand(names, slave)
    }

    /// The marks are durable before the reply exists.
    fn hand(&mut self, names: &[KeyName], sae: SaeNo) -> Result<Keys, Refusal> {
        self.write(
            names
                .iter()
                .map(|&name| Record::Handed { name, sae })
                .collect(),
        )?;
        Ok(names
            .iter()
            .map(|&name| (name, self.node.key_bytes(name)))
            .collect())
    }
}
