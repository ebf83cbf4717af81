//! Node names, links, routes, applications and their pairs.

use crate::base::{
    Lane, LinkNo, MAX_LINKS, MAX_NODES, MAX_ROUTE_NODES, MAX_SAES, NodeNo, SaeNo, Way,
};
use crate::payload::Route;
use std::collections::{BTreeMap, BTreeSet};

#[derive(Default)]
pub struct Site {
    pub nodes: Vec<String>,
    node_of: BTreeMap<String, NodeNo>,
    /// The lower and the higher node of each link.
    pub links: Vec<(NodeNo, NodeNo)>,
    neighbours: [Vec<(NodeNo, LinkNo)>; MAX_NODES],
    homes: Vec<NodeNo>,
    sae_of: BTreeMap<String, SaeNo>,
    allowed: BTreeSet<(SaeNo, SaeNo)>,
}

/// The declaration is refused.
pub struct Refused;

impl Site {
    pub fn add_node(&mut self, name: &str) -> Result<(), Refused> {
        if self.node_of.contains_key(name) || self.nodes.len() == MAX_NODES {
            return Err(Refused);
        }
        self.node_of.insert(name.into(), self.nodes.len() as NodeNo);
        self.nodes.push(name.into());
        Ok(())
    }

    pub fn add_link(&mut self, a: NodeNo, b: NodeNo) -> Result<(), Refused> {
        let pair = (a.min(b), a.max(b));
        if a == b || self.links.contains(&pair) || self.links.len() == MAX_LINKS {
            return Err(Refused);
        }
        let link = self.links.len() as LinkNo;
        self.links.push(pair);
        self.neighbours[usize::from(a)].push((b, link));
        self.neighbours[usize::from(b)].push((a, link));
        Ok(())
    }

    pub fn add_sae(&mut self, id: &str, home: NodeNo) -> Result<(), Refused> {
        if self.sae_of.contains_key(id) || self.homes.len() == MAX_SAES {
            return Err(Refused);
        }
        self.sae_of.insert(id.into(), self.homes.len() as SaeNo);
        self.homes.push(home);
        Ok(())
    }

    pub fn allow(&mut self, a: SaeNo, b: SaeNo) -> Result<(), Refused> {
        if self.home(a) == self.home(b) {
            return Err(Refused);
        }
        self.allowed.insert((a, b));
        Ok(())
    }

    pub fn node(&self, name: &str) -> Option<NodeNo> {
        self.node_of.get(name).copied()
    }

    pub fn sae(&self, id: &str) -> Option<SaeNo> {
        self.sae_of.get(id).copied()
    }

    pub fn home(&self, sae: SaeNo) -> NodeNo {
        self.homes[usize::from(sae)]
    }

    pub fn may(&self, master: SaeNo, slave: SaeNo) -> bool {
        self.allowed.contains(&(master, slave))
    }

    pub fn receiver(&self, lane: Lane) -> NodeNo {
        let (low, high) = self.links[usize::from(lane.link)];
        if lane.way == Way::Up { high } else { low }
    }

    /// The walk over links that are up with the fewest links, and among those the first in the
    /// order of the lists of node numbers.  None where no walk has at most eight links.
    pub fn route(&self, up: u32, a: NodeNo, b: NodeNo) -> Option<Route> {
        const FAR: u8 = u8::MAX;
        let near = |node: NodeNo| {
            self.neighbours[usize::from(node)]
                .iter()
                .filter(move |(_, link)| up >> link & 1 == 1)
                .map(|(to, _)| *to)
        };
        let mut distance = [FAR; MAX_NODES];
        distance[usize::from(b)] = 0;
        let mut queue = [b; MAX_NODES];
        let (mut taken, mut put) = (0, 1);
        while taken < put {
            let node = queue[taken];
            taken += 1;
            for to in near(node) {
                if distance[usize::from(to)] == FAR {
                    distance[usize::from(to)] = distance[usize::from(node)] + 1;
                    queue[put] = to;
                    put += 1;
                }
            }
        }
        let links = usize::from(distance[usize::from(a)]);
        if links >= MAX_ROUTE_NODES {
            return None;
        }
        let mut walk = [a; MAX_ROUTE_NODES];
        for i in 0..links {
            let left = distance[usize::from(walk[i])] - 1;
            walk[i + 1] = near(walk[i])
                .filter(|to| distance[usize::from(*to)] == left)
                .min()?;
        }
        Route::new(&walk[..=links])
    }
}

#[cfg(test)]
mod tests {
    use super::*;

    #[test]
    fn routes_around_a_link() {
        let mut site = Site::default();
        for (a, b) in [(0, 1), (1, 3), (0, 2), (2, 3)] {
            assert!(site.add_link(a, b).is_ok());
        }
        let walk = |up: u32| site.route(up, 0, 3).map(|route| route.nodes().to_vec());
        assert_eq!(walk(15), Some(vec![0, 1, 3]));
        assert_eq!(walk(14), Some(vec![0, 2, 3]));
        assert_eq!(walk(10), None);
        assert_eq!(site.route(15, 2, 2), None);
    }
}
