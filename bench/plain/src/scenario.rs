//! The scenario's grammar, for the lines of `load N`, `pass` and `tick`.

use crate::base::{KeyName, Lane, LinkNo, NodeNo, SaeNo, Way};
use crate::site::{Refused, Site};

pub const LONGEST: usize = 4_194_304;
const LONGEST_LINE: usize = 150_000;
const MOST_ROUNDS: u32 = 100_000;

#[derive(Clone, Copy, PartialEq, Eq)]
pub enum Ends {
    Low,
    High,
    Both,
}

pub enum Command {
    Bits {
        link: LinkNo,
        ends: Ends,
        count: u32,
    },
    Fill {
        master: SaeNo,
        slave: SaeNo,
        bits: usize,
        count: usize,
    },
    Tick {
        node: NodeNo,
    },
    Settle {
        rounds: u32,
    },
    Pass {
        lane: Lane,
        number: u64,
    },
    Enc {
        node: NodeNo,
        master: SaeNo,
        slave: SaeNo,
        count: usize,
        bits: usize,
    },
    Dec {
        node: NodeNo,
        slave: SaeNo,
        master: SaeNo,
        names: Vec<KeyName>,
    },
    Ledger {
        lane: Lane,
    },
}

pub struct Scenario {
    pub site: Site,
    pub lines: Vec<(u32, Command)>,
}

pub struct BadLine(pub u32);

enum Content {
    Declared,
    Command(Command),
    End,
}

#[derive(Default)]
struct Reader {
    site: Site,
    begun: bool,
    rounds: u32,
}

/// The words of a line that are left.
struct Words<'a, 'w> {
    words: std::str::Split<'a, char>,
    site: &'w Site,
}

fn good_word(word: &str, longest: usize) -> bool {
    (1..=longest).contains(&word.len())
        && word
            .bytes()
            .all(|c| c.is_ascii_alphanumeric() || b"_-.".contains(&c))
}

impl<'a> Words<'a, '_> {
    fn optional(&mut self) -> Option<&'a str> {
        self.words.find(|word| !word.is_empty())
    }

    fn next(&mut self) -> Result<&'a str, Refused> {
        self.optional().ok_or(Refused)
    }

    fn done(&mut self) -> Result<(), Refused> {
        self.optional().map_or(Ok(()), |_| Err(Refused))
    }

    fn number(&mut self, low: u64, high: u64) -> Result<u64, Refused> {
        decimal(self.next()?)
            .filter(|n| (low..=high).contains(n))
            .ok_or(Refused)
    }

    fn node(&mut self) -> Result<NodeNo, Refused> {
        let word = self.next()?;
        self.site.node(word).ok_or(Refused)
    }

    fn sae(&mut self) -> Result<SaeNo, Refused> {
        let word = self.next()?;
        self.site.sae(word).ok_or(Refused)
    }

    fn link(&mut self) -> Result<LinkNo, Refused> {
        let n = decimal(self.next()?).ok_or(Refused)?;
        if n >= self.site.links.len() as u64 {
            Err(Refused)
        } else {
            Ok(n as LinkNo)
        }
    }

    fn lane(&mut self) -> Result<Lane, Refused> {
        let link = self.link()?;
        let way = match self.next()? {
            "up" => Way::Up,
            "down" => Way::Down,
            _ => return Err(Refused),
        };
        Ok(Lane { link, way })
    }

    fn bits(&mut self) -> Result<usize, Refused> {
        let n = self.number(64, 4096)? as usize;
        if n.is_multiple_of(8) {
            Ok(n)
        } else {
            Err(Refused)
        }
    }

    fn name(&mut self) -> Result<KeyName, Refused> {
        KeyName::from_text(self.next()?).ok_or(Refused)
    }
}

/// A decimal number without a sign or a leading zero.
pub fn decimal(word: &str) -> Option<u64> {
    let digits = word.bytes().all(|c| c.is_ascii_digit());
    if !digits || (word.len() > 1 && word.starts_with('0')) {
        return None;
    }
    word.parse().ok()
}

impl Reader {
    fn line(&mut self, text: &str) -> Result<Content, Refused> {
        if text.starts_with(' ') || text.ends_with(' ') {
            return Err(Refused);
        }
        let mut words = Words {
            words: text.split(' '),
            site: &self.site,
        };
        let word = words.next()?;
        if matches!(word, "node" | "link" | "sae" | "allow") {
            if self.begun {
                return Err(Refused);
            }
            return self.declaration(text).map(|()| Content::Declared);
        }
        self.begun = true;
        let command = match word {
            "bits" => {
                let link = words.link()?;
                let ends = match words.next()? {
                    "low" => Ends::Low,
                    "high" => Ends::High,
                    "both" => Ends::Both,
                    _ => return Err(Refused),
                };
                Command::Bits {
                    link,
                    ends,
                    count: words.number(1, 1024)? as u32,
                }
            }
            "fill" => Command::Fill {
                master: words.sae()?,
                slave: words.sae()?,
                bits: words.bits()?,
                count: words.number(1, 128)? as usize,
            },
            "tick" => Command::Tick {
                node: words.node()?,
            },
            "settle" => {
                let rounds = words.number(1, 1000)? as u32;
                self.rounds += rounds;
                if self.rounds > MOST_ROUNDS {
                    return Err(Refused);
                }
                Command::Settle { rounds }
            }
            "pass" => Command::Pass {
                lane: words.lane()?,
                number: words.number(0, u64::from(u32::MAX))?,
            },
            "enc" => Command::Enc {
                node: words.node()?,
                master: words.sae()?,
                slave: words.sae()?,
                count: words.number(1, 128)? as usize,
                bits: words.bits()?,
            },
            "dec" => {
                let (node, slave, master) = (words.node()?, words.sae()?, words.sae()?);
                let mut names = vec![words.name()?];
                while let Some(word) = words.optional() {
                    names.push(KeyName::from_text(word).ok_or(Refused)?);
                }
                if names.len() > 128 {
                    return Err(Refused);
                }
                Command::Dec {
                    node,
                    slave,
                    master,
                    names,
                }
            }
            "ledger" => Command::Ledger {
                lane: words.lane()?,
            },
            "end" => {
                words.done()?;
                return Ok(Content::End);
            }
            _ => return Err(Refused),
        };
        words.done()?;
        Ok(Content::Command(command))
    }

    fn declaration(&mut self, text: &str) -> Result<(), Refused> {
        let mut words = Words {
            words: text.split(' '),
            site: &self.site,
        };
        match words.next()? {
            "node" => {
                let name = words.next()?;
                words.done()?;
                if !good_word(name, 32) {
                    return Err(Refused);
                }
                self.site.add_node(name)
            }
            "link" => {
                let (a, b) = (words.node()?, words.node()?);
                words.done()?;
                self.site.add_link(a, b)
            }
            "sae" => {
                let (id, home) = (words.next()?, words.node()?);
                words.done()?;
                if !good_word(id, 64) {
                    return Err(Refused);
                }
                self.site.add_sae(id, home)
            }
            _ => {
                let (a, b) = (words.sae()?, words.sae()?);
                words.done()?;
                self.site.allow(a, b)
            }
        }
    }
}

pub fn read(bytes: &[u8]) -> Result<Scenario, BadLine> {
    let mut reader = Reader::default();
    let mut lines = Vec::new();
    let mut number = 0;
    let mut at = 0;
    while at < bytes.len() {
        number += 1;
        let (content, ended) = match bytes[at..].iter().position(|&c| c == b'\n') {
            Some(n) => (&bytes[at..at + n], true),
            None => (&bytes[at..], false),
        };
        at += content.len() + usize::from(ended);
        let content = if ended {
            content.strip_suffix(b"\r").unwrap_or(content)
        } else {
            content
        };
        let printable = content.iter().all(|c| (0x20..=0x7e).contains(c));
        let text = std::str::from_utf8(content).map_err(|_| BadLine(number))?;
        if at > LONGEST || content.len() > LONGEST_LINE || !printable {
            return Err(BadLine(number));
        }
        if text.starts_with('#') || text.bytes().all(|c| c == b' ') {
            if !ended {
                return Err(BadLine(number));
            }
            continue;
        }
        match reader.line(text) {
            Ok(Content::End) if at == bytes.len() => {
                return Ok(Scenario {
                    site: reader.site,
                    lines,
                });
            }
            Ok(Content::End) => return Err(BadLine(number + 1)),
            Ok(Content::Command(command)) if ended => lines.push((number, command)),
            Ok(Content::Declared) if ended => {}
            _ => return Err(BadLine(number)),
        }
    }
    Err(BadLine(number + 1))
}
