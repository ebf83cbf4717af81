//! The nodes, the applications and which pairs are allowed.
use std::collections::{HashMap, HashSet};

/// An application: its place in the site.
pub type Sae = u16;

#[derive(Default)]
pub struct Site {
    pub nodes: Vec<String>,
    saes: Vec<(String, usize)>,
    numbers: HashMap<String, Sae>,
    allowed: HashSet<(Sae, Sae)>,
}

impl Site {
    pub fn add_node(&mut self, name: &str) {
        self.nodes.push(name.to_owned());
    }

    pub fn add_sae(&mut self, id: &str, node: usize) -> Sae {
        let sae = self.saes.len() as Sae;
        self.saes.push((id.to_owned(), node));
        self.numbers.insert(id.to_owned(), sae);
        sae
    }

    pub fn allow(&mut self, master: Sae, slave: Sae) {
        self.allowed.insert((master, slave));
    }

    pub fn node(&self, name: &str) -> Option<usize> {
        self.nodes.iter().position(|node| node == name)
    }

    pub fn find(&self, id: &str) -> Option<Sae> {
        self.numbers.get(id).copied()
    }

    pub fn may(&self, master: Sae, slave: Sae) -> bool {
        self.allowed.contains(&(master, slave))
    }

    pub fn id(&self, sae: Sae) -> &str {
        &self.saes[usize::from(sae)].0
    }

    pub fn home(&self, sae: Sae) -> usize {
        self.saes[usize::from(sae)].1
    }
}
