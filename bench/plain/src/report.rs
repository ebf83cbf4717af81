//! The texts of the report.

use crate::base::{KeyName, Lane};
use crate::lane::Counts;
use crate::manager::{Heard, Keys, Refusal};
use crate::node::Short;
use crate::payload::Kind;

const DIGITS: &[u8; 16] = b"0123456789abcdef";

/// One line of the report in the making; it is kept from line to line for its room.
#[derive(Default)]
pub struct Line {
    text: Vec<u8>,
}

impl Line {
    /// Begins the line of that scenario line.
    pub fn begin(&mut self, number: u32) -> &mut Line {
        self.text.clear();
        self.decimal(u64::from(number));
        self
    }

    /// Ends the line.
    pub fn end(&mut self) -> &[u8] {
        self.text.push(b'\n');
        &self.text
    }

    fn decimal(&mut self, mut n: u64) {
        let mut digits = [0; 20];
        let mut at = digits.len();
        loop {
            at -= 1;
            digits[at] = b'0' + (n % 10) as u8;
            n /= 10;
            if n == 0 {
                break;
            }
        }
        self.text.extend_from_slice(&digits[at..]);
    }

    pub fn word(&mut self, word: &str) -> &mut Line {
        self.text.push(b' ');
        self.text.extend_from_slice(word.as_bytes());
        self
    }

    pub fn number(&mut self, n: impl Into<u64>) -> &mut Line {
        self.text.push(b' ');
        self.decimal(n.into());
        self
    }

    pub fn count(&mut self, n: usize) -> &mut Line {
        self.number(n as u64)
    }

    pub fn lane(&mut self, lane: Lane) -> &mut Line {
        self.number(lane.link).word(lane.way.text())
    }

    fn octets(&mut self, octets: &[u8]) {
        self.text.extend(
            octets
                .iter()
                .flat_map(|o| [DIGITS[usize::from(o >> 4)], DIGITS[usize::from(o & 15)]]),
        );
    }

    pub fn hex(&mut self, octets: &[u8]) -> &mut Line {
        self.text.push(b' ');
        self.octets(octets);
        self
    }

    pub fn name(&mut self, name: KeyName) -> &mut Line {
        let octets = name.to_octets();
        self.hex(&octets[..4]);
        for part in [4..6, 6..8, 8..10, 10..16] {
            self.text.push(b'-');
            self.octets(&octets[part]);
        }
        self
    }

    pub fn refusal(&mut self, refusal: &Refusal) -> &mut Line {
        match *refusal {
            Refusal::LinkFull => self.word("link-full 1024"),
            Refusal::NotAllowed => self.word("not-allowed"),
            Refusal::NoRoute => self.word("no-route"),
            Refusal::PoolFull => self.word("pool-full 4096"),
            Refusal::JournalFull { length, need } => {
                self.word("journal-full").number(length).number(need)
            }
            Refusal::NoFrame(count) => self.word("no-frame").number(count),
            Refusal::BadFrame(place) => self.word("bad-frame").number(place),
            Refusal::WrongLane { link, way } => self.word("wrong-lane").number(link).number(way),
            Refusal::NoBits(have) => self.word("no-bits").number(have),
            Refusal::BadTag { given, computed } => self
                .word("bad-tag")
                .hex(&given.to_be_bytes())
                .hex(&computed.to_be_bytes()),
            Refusal::Few(count) => self.word("few").count(count),
            Refusal::Unknown(place) => self.word("unknown").count(place),
            Refusal::Repeated(place) => self.word("repeated").count(place),
            Refusal::Handed(place) => self.word("handed").count(place),
        }
    }

    pub fn made(&mut self, count: usize, reply: &Result<KeyName, Refusal>) -> &mut Line {
        match reply {
            Ok(first) => self.word("made").count(count).name(*first),
            Err(refusal) => self.refusal(refusal),
        }
    }

    pub fn short(&mut self, short: &Short) -> &mut Line {
        self.word("short")
            .lane(short.lane)
            .number(short.used)
            .number(short.need)
            .number(short.received)
    }

    pub fn sent(&mut self, lane: Lane, number: u64, offset: u64, length: usize) -> &mut Line {
        self.word("sent")
            .lane(lane)
            .number(number)
            .number(offset)
            .count(length)
    }

    pub fn pass(&mut self, lane: Lane, number: u64, result: &Result<Heard, Refusal>) -> &mut Line {
        self.word("pass").lane(lane).number(number);
        match result {
            Ok(heard) => {
                self.word(if heard.fresh { "taken" } else { "again" });
                self.word(match heard.kind {
                    Kind::Key => "key",
                    Kind::Stored => "stored",
                    Kind::Ack => "ack",
                });
                self.name(heard.name)
            }
            Err(refusal) => self.refusal(refusal),
        }
    }

    pub fn keys(&mut self, reply: &Result<Keys, Refusal>) -> &mut Line {
        match reply {
            Ok(keys) => {
                self.word("keys");
                for (name, bytes) in keys {
                    self.name(*name).hex(bytes);
                }
                self
            }
            Err(refusal) => self.refusal(refusal),
        }
    }

    pub fn ledger(&mut self, lane: Lane, counts: &Counts) -> &mut Line {
        self.word("ledger").lane(lane);
        self.word("received")
            .number(counts.received)
            .word("unused")
            .number(counts.unused);
        self.word("spent")
            .number(counts.spent)
            .word("burnt")
            .number(counts.burnt)
    }
}
