//! The lines of a scenario that say who there is and which keys are made: `node`, `sae`, `allow` and `fill`. All others are
//! passed over, since here a key is known to both nodes at once.
use crate::manager::Manager;
use crate::name::Name;
use crate::site::Site;
use std::fs::File;
use std::io::{self, Read};
use std::sync::Mutex;

pub struct Network {
    pub site: Site,
    pub managers: Vec<Mutex<Manager>>,
    random: File,
    made: Vec<u64>,
}

impl Network {
    /// The network of a scenario, whose lines are taken to be right.
    pub fn read(scenario: &str) -> io::Result<Self> {
        let mut network = Network { site: Site::default(), managers: Vec::new(), random: File::open("/dev/urandom")?, made: Vec::new() };
        for line in scenario.lines() {
            let words: Vec<_> = line.split_whitespace().collect();
            network.perform(&words)?.ok_or_else(|| io::Error::other(format!("bad line: {line}")))?;
        }
        Ok(network)
    }

    /// What a line asks for; none where it can't be.
    fn perform(&mut self, words: &[&str]) -> io::Result<Option<()>> {
        Ok(match *words {
            ["node", name] => {
                self.site.add_node(name);
                self.managers.push(Mutex::default());
                self.made.push(0);
                Some(())
            }
            ["sae", id, name] => self.site.node(name).map(|node| _ = self.site.add_sae(id, node)),
            ["allow", master, slave] => self.site.find(master).zip(self.site.find(slave)).map(|(master, slave)| self.site.allow(master, slave)),
            ["fill", master, slave, bits, count] => match (self.site.find(master), self.site.find(slave), bits.parse(), count.parse()) {
                (Some(master), Some(slave), Ok(bits), Ok(count)) => Some(self.fill(master, slave, bits, count)?),
                _ => None,
            },
            _ => Some(()),
        })
    }

    fn fill(&mut self, master: u16, slave: u16, bits: u16, count: u32) -> io::Result<()> {
        let (source, target) = (self.site.home(master), self.site.home(slave));
        for _ in 0..count {
            let mut bytes = vec![0; usize::from(bits / 8)];
            self.random.read_exact(&mut bytes)?;
            self.made[source] += 1;
            let name = Name::of_key(source, self.made[source]);
            self.managers[source].get_mut().expect("no thread yet").make(master, slave, bits, name, bytes.clone());
            self.managers[target].get_mut().expect("no thread yet").keep(master, slave, name, bytes);
        }
        Ok(())
    }
}
