//! The scenario of `load N`.

use crate::base::{KeyName, NameKind};
use crate::report::Line;
use std::fmt::Write;

const NODES: usize = 8;

/// The hyphenated text of a name.
fn text_of(name: KeyName) -> String {
    let mut line = Line::default();
    let text = line.begin(0).name(name).end();
    String::from_utf8_lossy(&text[2..text.len() - 1]).into_owned()
}

fn write(out: &mut String, n: usize) -> std::fmt::Result {
    for i in 0..NODES {
        writeln!(out, "node n{i}")?;
    }
    for i in 1..NODES {
        writeln!(out, "link n{} n{i}", i - 1)?;
    }
    writeln!(out, "link n0 n7")?;
    for i in 0..NODES {
        writeln!(out, "sae s{i} n{i}")?;
    }
    for i in 0..NODES {
        for j in (0..NODES).filter(|j| *j != i) {
            writeln!(out, "allow s{i} s{j}")?;
        }
    }
    for link in 0..NODES {
        writeln!(out, "bits {link} both {}", 2 * n)?;
    }
    let mut used = [0; NODES];
    for r in 0..n {
        let (m, t) = (r % NODES, (3 * r + 1) % NODES);
        writeln!(out, "fill s{m} s{t} 256 4")?;
        writeln!(out, "settle 40")?;
        writeln!(out, "enc n{m} s{m} s{t} 4 256")?;
        write!(out, "dec n{t} s{t} s{m}")?;
        for count in used[m] + 1..=used[m] + 4 {
            let name = KeyName::new(m as u8, NameKind::Key, count).expect("a small count");
            write!(out, " {}", text_of(name))?;
        }
        writeln!(out)?;
        used[m] += 4;
        used[t] += 4;
    }
    for link in 0..NODES {
        writeln!(out, "ledger {link} up\nledger {link} down")?;
    }
    writeln!(out, "end")
}

pub fn scenario_of(n: usize) -> String {
    let mut out = String::new();
    write(&mut out, n).expect("a String takes all");
    out
}
