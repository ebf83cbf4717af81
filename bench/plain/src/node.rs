//! The state of one manager: the fold of its records, and what one life alone keeps.
//! Every index is an ordered map or set; no event walks the
//! facts.

use crate::base::{KeyName, LEASE_SIZE, Lane, LinkNo, NameKind, NodeNo, SaeNo, Way};
use crate::field::Form;
use crate::frame::OVERHEAD as FRAME_OVERHEAD;
use crate::payload::{ACK_LENGTH, Fact};
use crate::records::Record;
use crate::segments::Segments;
use crate::site::Site;
use crate::window::Window;
use std::collections::{BTreeMap, BTreeSet};

/// The place of a fact in order of learning.
type FactNo = u32;

struct Learned {
    fact: Fact,
    acked: bool,
}

/// The keys made here for one pair of applications and one size.
#[derive(Default)]
struct Pool {
    unhanded: usize,
    /// Confirmed by the target and not handed to the master.
    ready: BTreeSet<KeyName>,
}

/// One end of a link.
struct End {
    out: Lane,
    segments: Segments,
    lease: u64,
    planned: u64,
    /// Owed to the neighbour and in no window, in order of learning.
    fresh: BTreeSet<FactNo>,
    window: Window,
}

#[derive(Clone, Copy)]
pub enum Item {
    Told(FactNo),
    Ack { name: KeyName, of: u64 },
}

pub struct Order {
    pub item: Item,
    pub need: u64,
}

/// The emissions of one tick on one lane.
pub struct LanePlan {
    pub lane: Lane,
    /// Offsets and wire numbers.
    pub repeats: Vec<(u64, u64)>,
    pub orders: Vec<Order>,
}

pub struct Short {
    pub lane: Lane,
    pub used: u64,
    pub need: u64,
    pub received: u64,
}

#[derive(Default)]
pub struct Plan {
    pub lanes: Vec<LanePlan>,
    pub shorts: Vec<Short>,
    /// The lanes whose leased end rises, and their new ends.
    pub leases: Vec<(Lane, u64)>,
}

pub struct Node {
    me: NodeNo,
    form: Form,
    /// In order of link.
    ends: Vec<End>,
    known: Vec<Learned>,
    fact_of: BTreeMap<KeyName, FactNo>,
    counter: u64,
    pools: BTreeMap<(SaeNo, SaeNo, usize), Pool>,
    handed: BTreeSet<(KeyName, SaeNo)>,
    handed_counts: (u64, u64),
    /// The neighbour of each place in `ends`.
    neighbours: Vec<NodeNo>,
    ticks: u64,
}

impl Node {
    pub fn new(site: &Site, me: NodeNo, form: Form) -> Node {
        let mut ends = Vec::new();
        let mut neighbours = Vec::new();
        for (link, &(low, high)) in site.links.iter().enumerate() {
            if me != low && me != high {
                continue;
            }
            let (way, to) = if me == low {
                (Way::Up, high)
            } else {
                (Way::Down, low)
            };
            ends.push(End {
                out: Lane {
                    link: link as LinkNo,
                    way,
                },
                segments: Segments::default(),
                lease: 0,
                planned: 0,
                fresh: BTreeSet::new(),
                window: Window::default(),
            });
            neighbours.push(to);
        }
        Node {
            me,
            form,
            ends,
            known: Vec::new(),
            fact_of: BTreeMap::new(),
            counter: 0,
            pools: BTreeMap::new(),
            handed: BTreeSet::new(),
            handed_counts: (0, 0),
            neighbours,
            ticks: 0,
        }
    }

    fn place_of(&self, link: LinkNo) -> usize {
        self.ends
            .binary_search_by_key(&link, |end| end.out.link)
            .expect("the link joins this node")
    }

    /// The place of the neighbour to which this node owes the fact.
    fn owed_to(&self, fact: &Fact) -> Option<usize> {
        let to = fact.route().next_after(self.me)?;
        self.neighbours
            .iter()
            .position(|neighbour| *neighbour == to)
    }

    pub fn segments(&self, link: LinkNo) -> &Segments {
        &self.ends[self.place_of(link)].segments
    }

    pub fn fact(&self, number: FactNo) -> &Fact {
        &self.known[number as usize].fact
    }

    fn find(&self, name: KeyName) -> Option<&Learned> {
        Some(&self.known[*self.fact_of.get(&name)? as usize])
    }

    pub fn knows(&self, name: KeyName) -> bool {
        self.fact_of.contains_key(&name)
    }

    /// The name with the next count, `ahead` behind it.
    pub fn next_name(&self, kind: NameKind, ahead: u64) -> KeyName {
        KeyName::new(self.me, kind, self.counter + 1 + ahead).expect("no run reaches 2^48 names")
    }

    /// Keys handed to masters and to slaves.
    pub fn handed_counts(&self) -> (u64, u64) {
        self.handed_counts
    }

    // Records.

    pub fn apply(&mut self, record: Record) {
        match record {
            Record::Block { link, bytes, .. } => {
                let place = self.place_of(link);
                let end = &mut self.ends[place];
                end.segments.take(bytes, self.form);
                if end.lease == 0 && end.segments.lane(end.out.way).received() != 0 {
                    (end.lease, end.planned) = (8, 8);
                }
            }
            Record::Lease { lane, end } => {
                let place = self.place_of(lane.link);
                self.ends[place].lease = end;
            }
            Record::Learned(fact) => self.learn(fact),
            Record::Acked(name) => self.acked(name),
            Record::Handed { name, sae } => self.mark(name, sae),
        }
    }

    fn learn(&mut self, fact: Fact) {
        let (name, number) = (fact.name(), self.known.len() as FactNo);
        if name.node() == self.me {
            self.counter = self.counter.max(name.count());
        }
        if let Some(place) = self.owed_to(&fact) {
            self.ends[place].fresh.insert(number);
        }
        match &fact {
            Fact::Key {
                master,
                slave,
                route,
                bytes,
                ..
            } if route.first() == self.me => {
                self.pools
                    .entry((*master, *slave, 8 * bytes.len()))
                    .or_default()
                    .unhanded += 1;
            }
            Fact::Stored { about, route, .. } if route.last() == self.me => self.confirm(*about),
            _ => {}
        }
        self.known.push(Learned { fact, acked: false });
        self.fact_of.insert(name, number);
    }

    /// A Stored note about a key of this node is known: the key is ready.
    fn confirm(&mut self, about: KeyName) {
        let Some(&number) = self.fact_of.get(&about) else {
            return;
        };
        if let Fact::Key {
            name,
            master,
            slave,
            route,
            bytes,
        } = &self.known[number as usize].fact
            && route.first() == self.me
            && !self.handed.contains(&(*name, *master))
        {
            self.pools
                .entry((*master, *slave, 8 * bytes.len()))
                .or_default()
                .ready
                .insert(*name);
        }
    }

    fn acked(&mut self, name: KeyName) {
        let Some(&number) = self.fact_of.get(&name) else {
            return;
        };
        self.known[number as usize].acked = true;
        if let Some(place) = self.owed_to(&self.known[number as usize].fact) {
            self.ends[place].fresh.remove(&number);
        }
    }

    fn mark(&mut self, name: KeyName, sae: SaeNo) {
        let Some(&number) = self.fact_of.get(&name) else {
            return;
        };
        let Fact::Key {
            master,
            slave,
            bytes,
            ..
        } = &self.known[number as usize].fact
        else {
            return;
        };
        if (sae != *master && sae != *slave) || !self.handed.insert((name, sae)) {
            return;
        }
        if sae == *master {
            self.handed_counts.0 += 1;
            if let Some(pool) = self.pools.get_mut(&(*master, *slave, 8 * bytes.len())) {
                pool.unhanded -= 1;
                pool.ready.remove(&name);
            }
        } else {
            self.handed_counts.1 += 1;
        }
    }

    // Plans.

    pub fn plan(&self, up: u32) -> Plan {
        let mut plan = Plan::default();
        for end in &self.ends {
            let lane = end.out;
            if up >> lane.link & 1 == 0 {
                continue;
            }
            let received = end.segments.lane(lane.way).received();
            let mut used = end.planned;
            let acks = end.window.waiting().map(|&(of, name)| Order {
                item: Item::Ack { name, of },
                need: ACK_LENGTH as u64 + 8,
            });
            let facts = end.fresh.iter().map(|&number| Order {
                item: Item::Told(number),
                need: self.fact(number).spelled_len() as u64 + 8,
            });
            let mut orders = Vec::new();
            for order in acks.chain(facts) {
                if used + order.need > received {
                    plan.shorts.push(Short {
                        lane,
                        used,
                        need: order.need,
                        received,
                    });
                    break;
                }
                used += order.need;
                orders.push(order);
            }
            if used > end.lease {
                plan.leases
                    .push((lane, used.next_multiple_of(LEASE_SIZE).min(received)));
            }
            let repeats = end.window.repeats();
            if !repeats.is_empty() || !orders.is_empty() {
                plan.lanes.push(LanePlan {
                    lane,
                    repeats,
                    orders,
                });
            }
        }
        plan
    }

    /// The plan's orders and repeats are on their way, and one tick is over.
    pub fn planned(&mut self, plan: &Plan) {
        self.ticks += 1;
        let mut lanes = plan.lanes.iter().peekable();
        for end in &mut self.ends {
            let Some(lane) = lanes.next_if(|lane| lane.lane == end.out) else {
                end.window.tick(self.ticks, &[]);
                continue;
            };
            let mut acks = 0;
            for order in &lane.orders {
                end.planned += order.need;
                match order.item {
                    Item::Told(number) => {
                        end.fresh.remove(&number);
                    }
                    Item::Ack { .. } => acks += 1,
                }
            }
            end.window.emitting(acks);
            end.window.tick(self.ticks, &lane.repeats);
        }
    }

    /// The frame of an order is on the wire.
    pub fn note(&mut self, lane: Lane, item: Item, offset: u64, number: u64, frame: &[u8]) {
        let (name, ack_of) = match item {
            Item::Told(fact) => (self.fact(fact).name(), None),
            Item::Ack { name, of } => (name, Some(of)),
        };
        let place = self.place_of(lane.link);
        self.ends[place]
            .window
            .hold(self.ticks, offset, name, ack_of, frame, number);
    }

    /// A repeat is on the wire; the length of its payload.
    pub fn note_again(&mut self, lane: Lane, offset: u64, number: u64) -> usize {
        let place = self.place_of(lane.link);
        self.ends[place]
            .window
            .placed(offset, number)
            .expect("a repeat has an entry")
            - FRAME_OVERHEAD
    }

    // Frames heard.

    /// Whether an acknowledgement that came on that link is new and meant for this node.
    pub fn takes_ack(&self, name: KeyName, link: LinkNo) -> bool {
        self.find(name).is_some_and(|learned| {
            !learned.acked && self.owed_to(&learned.fact) == Some(self.place_of(link))
        })
    }

    pub fn cleared(&mut self, name: KeyName, link: LinkNo) {
        let place = self.place_of(link);
        self.ends[place].window.cleared(name);
    }

    pub fn heard(&mut self, link: LinkNo, offset: u64, name: KeyName) {
        let place = self.place_of(link);
        self.ends[place].window.heard(offset, name);
    }

    // Keys.

    pub fn unhanded(&self, master: SaeNo, slave: SaeNo, bits: usize) -> usize {
        self.pools
            .get(&(master, slave, bits))
            .map_or(0, |pool| pool.unhanded)
    }

    /// The first `n` ready keys, or their number where there are fewer.
    pub fn hand_master(
        &self,
        master: SaeNo,
        slave: SaeNo,
        bits: usize,
        n: usize,
    ) -> Result<Vec<KeyName>, usize> {
        let Some(pool) = self.pools.get(&(master, slave, bits)) else {
            return Err(0);
        };
        if pool.ready.len() < n {
            return Err(pool.ready.len());
        }
        Ok(pool.ready.iter().take(n).copied().collect())
    }

    /// Whether the name is a key that arrived here for this pair.
    pub fn arrived(&self, name: KeyName, master: SaeNo, slave: SaeNo) -> bool {
        self.find(name).is_some_and(|learned| match &learned.fact {
            Fact::Key {
                master: m,
                slave: s,
                route,
                ..
            } => (*m, *s) == (master, slave) && route.last() == self.me,
            Fact::Stored { .. } => false,
        })
    }

    pub fn is_handed(&self, name: KeyName, sae: SaeNo) -> bool {
        self.handed.contains(&(name, sae))
    }

    /// A copy of the key's bytes.
    pub fn key_bytes(&self, name: KeyName) -> Box<[u8]> {
        match self.find(name).map(|learned| &learned.fact) {
            Some(Fact::Key { bytes, .. }) => bytes.clone(),
            _ => Box::default(),
        }
    }
}
