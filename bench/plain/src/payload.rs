//! Routes, facts and payloads.  Of the seven kinds those three are here that
//! keys need: Key, Stored and Ack.

use crate::base::{KeyName, MAX_ROUTE_NODES, NameKind, NodeNo, SaeNo};

/// Two to nine different nodes.
#[derive(Clone, Copy, PartialEq, Eq, Debug)]
pub struct Route {
    length: u8,
    nodes: [NodeNo; MAX_ROUTE_NODES],
}

impl Route {
    pub fn new(nodes: &[NodeNo]) -> Option<Route> {
        let mut seen = 0u16;
        for &node in nodes {
            if node > 15 || seen >> node & 1 == 1 {
                return None;
            }
            seen |= 1 << node;
        }
        if !(2..=MAX_ROUTE_NODES).contains(&nodes.len()) {
            return None;
        }
        let mut route = Route {
            length: nodes.len() as u8,
            nodes: [0; MAX_ROUTE_NODES],
        };
        route.nodes[..nodes.len()].copy_from_slice(nodes);
        Some(route)
    }

    pub fn nodes(&self) -> &[NodeNo] {
        &self.nodes[..usize::from(self.length)]
    }

    pub fn first(&self) -> NodeNo {
        self.nodes[0]
    }

    pub fn last(&self) -> NodeNo {
        self.nodes[usize::from(self.length) - 1]
    }

    pub fn next_after(&self, node: NodeNo) -> Option<NodeNo> {
        self.nodes()
            .windows(2)
            .find(|pair| pair[0] == node)
            .map(|pair| pair[1])
    }

    pub fn reversed(&self) -> Route {
        let mut route = *self;
        route.nodes[..usize::from(self.length)].reverse();
        route
    }
}

#[derive(Clone, Copy, PartialEq, Eq, Debug)]
pub enum Kind {
    Key = 1,
    Stored = 2,
    Ack = 3,
}

#[derive(Debug)]
pub enum Fact {
    Key {
        name: KeyName,
        master: SaeNo,
        slave: SaeNo,
        route: Route,
        bytes: Box<[u8]>,
    },
    Stored {
        note: KeyName,
        about: KeyName,
        route: Route,
    },
}

#[derive(Debug)]
pub enum Payload {
    Told(Fact),
    Ack(KeyName),
}

pub const ACK_LENGTH: usize = 17;

pub fn key_length(route: &Route, octets: usize) -> usize {
    24 + route.nodes().len() + octets
}

impl Fact {
    pub fn name(&self) -> KeyName {
        match *self {
            Fact::Key { name, .. } => name,
            Fact::Stored { note, .. } => note,
        }
    }

    pub fn route(&self) -> &Route {
        match self {
            Fact::Key { route, .. } | Fact::Stored { route, .. } => route,
        }
    }

    pub fn kind(&self) -> Kind {
        match self {
            Fact::Key { .. } => Kind::Key,
            Fact::Stored { .. } => Kind::Stored,
        }
    }

    pub fn spelled_len(&self) -> usize {
        match self {
            Fact::Key { route, bytes, .. } => key_length(route, bytes.len()),
            Fact::Stored { route, .. } => 34 + route.nodes().len(),
        }
    }

    /// Appends the spelling.
    pub fn spell(&self, out: &mut Vec<u8>) {
        match self {
            Fact::Key {
                name,
                master,
                slave,
                route,
                bytes,
            } => {
                out.push(Kind::Key as u8);
                out.extend_from_slice(&name.to_octets());
                out.extend_from_slice(&[0, *master, 0, *slave]);
                out.extend_from_slice(&(bytes.len() as u16).to_be_bytes());
                spell_route(route, out);
                out.extend_from_slice(bytes);
            }
            Fact::Stored { note, about, route } => {
                out.push(Kind::Stored as u8);
                out.extend_from_slice(&note.to_octets());
                out.extend_from_slice(&about.to_octets());
                spell_route(route, out);
            }
        }
    }
}

fn spell_route(route: &Route, out: &mut Vec<u8>) {
    out.push(route.nodes().len() as u8);
    out.extend_from_slice(route.nodes());
}

pub fn spell_ack(name: KeyName, out: &mut Vec<u8>) {
    out.push(Kind::Ack as u8);
    out.extend_from_slice(&name.to_octets());
}

/// The octet at which the first field begins that doesn't fit.
#[derive(PartialEq, Eq, Debug)]
pub struct NotAPayload(pub u32);

struct Reader<'a> {
    octets: &'a [u8],
    at: usize,
}

impl<'a> Reader<'a> {
    fn refused<T>(&self) -> Result<T, NotAPayload> {
        Err(NotAPayload(self.at as u32))
    }

    fn peek(&self, n: usize) -> Result<&'a [u8], NotAPayload> {
        self.octets
            .get(self.at..self.at + n)
            .ok_or(NotAPayload(self.at as u32))
    }

    fn u16_in(&mut self, low: u16, high: u16) -> Result<u16, NotAPayload> {
        let octets = self.peek(2)?;
        let value = u16::from_be_bytes([octets[0], octets[1]]);
        if !(low..=high).contains(&value) {
            return self.refused();
        }
        self.at += 2;
        Ok(value)
    }

    fn name(&mut self, kind: Option<NameKind>) -> Result<KeyName, NotAPayload> {
        let octets = self.peek(16)?.first_chunk().and_then(KeyName::from_octets);
        match octets {
            Some(name) if kind.is_none_or(|kind| kind == name.kind()) => {
                self.at += 16;
                Ok(name)
            }
            _ => self.refused(),
        }
    }

    fn route(&mut self) -> Result<Route, NotAPayload> {
        let n = usize::from(self.peek(1)?[0]);
        match Route::new(&self.peek(1 + n)?[1..]) {
            Some(route) => {
                self.at += 1 + n;
                Ok(route)
            }
            None => self.refused(),
        }
    }
}

pub fn read(octets: &[u8]) -> Result<Payload, NotAPayload> {
    let mut reader = Reader { octets, at: 0 };
    let kind = reader.peek(1)?[0];
    if !(1..=3).contains(&kind) {
        return reader.refused();
    }
    reader.at = 1;
    let payload = match kind {
        1 => {
            let name = reader.name(Some(NameKind::Key))?;
            let master = reader.u16_in(0, 255)? as SaeNo;
            let slave = reader.u16_in(0, 255)? as SaeNo;
            let length = usize::from(reader.u16_in(8, 512)?);
            let route = reader.route()?;
            let bytes = reader.peek(length)?.into();
            reader.at += length;
            Payload::Told(Fact::Key {
                name,
                master,
                slave,
                route,
                bytes,
            })
        }
        2 => {
            let note = reader.name(Some(NameKind::Note))?;
            let about = reader.name(Some(NameKind::Key))?;
            let route = reader.route()?;
            Payload::Told(Fact::Stored { note, about, route })
        }
        _ => Payload::Ack(reader.name(None)?),
    };
    if reader.at != octets.len() {
        return reader.refused();
    }
    Ok(payload)
}
