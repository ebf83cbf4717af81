//! A plain reader of the lines that bench/reader.py writes. It reads its standard input as often as
//! its word says, and prints how many entries there are.
use std::collections::{HashMap, HashSet};
use std::io::Read;

#[derive(Clone, Copy, PartialEq)]
#[allow(dead_code)]
struct Name(u8, u8, u64);

#[allow(dead_code)]
enum Command {
    Fill(u16, u16, u16, u16),
    Tick(u8),
    Pass(u8, bool, u32),
    Flip(u8, bool, u32, u32),
    Forge(u8, bool, Vec<u8>),
    Enc(u8, u16, u16, u16, u16),
    Dec(u8, u16, u16, Vec<Name>),
    Status(u8, u16, u16),
    GetKey(u8, u16, Name, u32),
    Ledger(u8, bool),
}

#[derive(Default)]
struct Site {
    nodes: HashMap<String, u8>,
    links: Vec<(u8, u8)>,
    saes: HashMap<String, (u16, u8)>,
    allowed: HashSet<(u16, u16)>,
}

fn number(word: &str, least: u32, most: u32) -> Option<u32> {
    let plain = word.bytes().all(|b| b.is_ascii_digit()) && (word.len() == 1 || !word.starts_with('0'));
    let n = word.parse().ok()?;
    (plain && least <= n && n <= most).then_some(n)
}

fn size(word: &str) -> Option<u16> {
    let bits = number(word, 64, 4096)?;
    (bits % 8 == 0).then_some(bits as u16)
}

fn hex(word: &str) -> Option<Vec<u8>> {
    let digits = word.as_bytes();
    if digits.is_empty() || digits.len() % 2 == 1 {
        return None;
    }
    let digit = |d: u8| (d as char).to_digit(16);
    digits.chunks(2).map(|pair| Some((digit(pair[0])? * 16 + digit(pair[1])?) as u8)).collect()
}

fn name(word: &str) -> Option<Name> {
    let w = word.as_bytes();
    let fixed = w.len() == 36 && word.starts_with("00000000-0000-80") && &w[18..22] == b"-800" && w[23] == b'-';
    if !fixed || w.iter().any(|b| b.is_ascii_uppercase()) {
        return None;
    }
    let node = u8::from_str_radix(&word[16..18], 16).ok()?;
    let kind = u8::from_str_radix(&word[22..23], 16).ok()?;
    let count = u64::from_str_radix(&word[24..], 16).ok()?;
    (node < 16 && kind < 3 && count > 0).then_some(Name(node, kind, count))
}

impl Site {
    fn node(&self, word: &str) -> Option<u8> {
        self.nodes.get(word).copied()
    }

    fn sae(&self, word: &str) -> Option<u16> {
        self.saes.get(word).map(|sae| sae.0)
    }

    fn lane(&self, link: &str, way: &str) -> Option<(u8, bool)> {
        let link = number(link, 0, self.links.len().checked_sub(1)? as u32)? as u8;
        match way {
            "up" => Some((link, true)),
            "down" => Some((link, false)),
            _ => None,
        }
    }

    fn declare(&mut self, words: &[&str]) -> Option<()> {
        match *words {
            ["node", name] => {
                let next = self.nodes.len() as u8;
                self.nodes.insert(name.to_owned(), next).is_none().then_some(())
            }
            ["link", a, b] => {
                let ends = (self.node(a)?, self.node(b)?);
                self.links.push((ends.0.min(ends.1), ends.0.max(ends.1)));
                Some(())
            }
            ["sae", id, node] => {
                let next = (self.saes.len() as u16, self.node(node)?);
                self.saes.insert(id.to_owned(), next).is_none().then_some(())
            }
            ["allow", master, slave] => {
                self.allowed.insert((self.sae(master)?, self.sae(slave)?));
                Some(())
            }
            _ => None,
        }
    }

    fn command(&self, words: &[&str]) -> Option<Command> {
        Some(match *words {
            ["fill", m, s, bits, count] => {
                Command::Fill(self.sae(m)?, self.sae(s)?, size(bits)?, number(count, 1, 128)? as u16)
            }
            ["tick", node] => Command::Tick(self.node(node)?),
            ["pass", link, way, n] => {
                let lane = self.lane(link, way)?;
                Command::Pass(lane.0, lane.1, number(n, 0, u32::MAX)?)
            }
            ["flip", link, way, n, bit] => {
                let lane = self.lane(link, way)?;
                Command::Flip(lane.0, lane.1, number(n, 0, u32::MAX)?, number(bit, 0, u32::MAX)?)
            }
            ["forge", link, way, octets] => {
                let lane = self.lane(link, way)?;
                Command::Forge(lane.0, lane.1, hex(octets)?)
            }
            ["enc", node, m, s, count, bits] => {
                Command::Enc(self.node(node)?, self.sae(m)?, self.sae(s)?, number(count, 1, 128)? as u16, size(bits)?)
            }
            ["dec", node, s, m, ref names @ ..] => {
                let names = names.iter().map(|word| name(word)).collect::<Option<_>>()?;
                Command::Dec(self.node(node)?, self.sae(s)?, self.sae(m)?, names)
            }
            ["status", node, m, s] => Command::Status(self.node(node)?, self.sae(m)?, self.sae(s)?),
            ["q004", node, "GET_KEY", caller, stream, index] => {
                Command::GetKey(self.node(node)?, self.sae(caller)?, name(stream)?, number(index, 0, u32::MAX)?)
            }
            ["ledger", link, way] => {
                let lane = self.lane(link, way)?;
                Command::Ledger(lane.0, lane.1)
            }
            _ => return None,
        })
    }
}

fn read(text: &[u8]) -> Option<usize> {
    let text = std::str::from_utf8(text).ok()?;
    let (mut site, mut entries) = (Site::default(), Vec::new());
    let mut words = Vec::new();
    for (number, line) in text.lines().enumerate() {
        if !line.bytes().all(|b| (32..=126).contains(&b)) {
            return None;
        }
        words.clear();
        words.extend(line.split(' ').filter(|word| !word.is_empty()));
        match words.first() {
            None => {}
            Some(&"end") => break,
            Some(&("node" | "link" | "sae" | "allow")) => site.declare(&words)?,
            Some(_) => entries.push((number, site.command(&words)?)),
        }
    }
    Some(std::hint::black_box(entries).len())
}

fn main() {
    let count = std::env::args().nth(1).and_then(|word| word.parse().ok()).unwrap_or(1);
    let mut text = Vec::new();
    std::io::stdin().read_to_end(&mut text).unwrap();
    let mut entries = None;
    for _ in 0..count {
        entries = read(&text);
    }
    match entries {
        Some(entries) => println!("{entries} entries"),
        None => println!("no scenario"),
    }
}
