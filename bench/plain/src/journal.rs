//! The journal of a node: a header, batches with their gates, a closed gate.

use crate::base::JOURNAL_LIMIT;
use crate::disk::MemDisk;

const HEADER: [u8; 16] = *b"QKDJRNL\x02\0\0\0\0\0\0\0\0";

pub struct JournalFull {
    pub length: u64,
    pub need: u64,
}

pub struct Journal {
    disk: MemDisk,
    length: usize,
    /// The bodies of the batches, as `Journal::batches` of the specification keeps them.
    batches: Vec<Box<[u8]>>,
    /// A batch behind its gate: length, body and the next closed gate.
    spelling: Vec<u8>,
}

impl Journal {
    /// Writes the header and one closed gate on a blank disk.
    pub fn create(mut disk: MemDisk) -> Journal {
        disk.write_at(0, &HEADER);
        disk.write_at(HEADER.len(), &[0]);
        disk.sync();
        Journal {
            disk,
            length: HEADER.len() + 1,
            batches: Vec::new(),
            spelling: Vec::new(),
        }
    }

    /// Whether a body of that length fits.
    pub fn check(&self, body: usize) -> Result<(), JournalFull> {
        let (length, need) = (self.length as u64, body as u64 + 5);
        if length + need > JOURNAL_LIMIT {
            return Err(JournalFull { length, need });
        }
        Ok(())
    }

    /// Appends the body that `spell` appends: length, body and the next closed gate, a sync, the
    /// open gate, a sync.
    pub fn append(&mut self, spell: impl FnOnce(&mut Vec<u8>)) -> Result<(), JournalFull> {
        self.spelling.clear();
        self.spelling.extend_from_slice(&[0; 4]);
        spell(&mut self.spelling);
        let body = self.spelling.len() - 4;
        self.check(body)?;
        self.spelling[..4].copy_from_slice(&(body as u32).to_be_bytes());
        self.batches.push(self.spelling[4..].into());
        self.spelling.push(0);
        self.disk.write_at(self.length, &self.spelling);
        self.disk.sync();
        self.disk.write_at(self.length - 1, &[1]);
        self.disk.sync();
        self.length += 5 + body;
        Ok(())
    }

    #[cfg(test)]
    pub fn synced(&self) -> &[u8] {
        self.disk.synced()
    }
}

#[cfg(test)]
mod tests {
    use super::*;

    #[test]
    fn a_batch_in_version_2() {
        let mut journal = Journal::create(MemDisk::default());
        assert_eq!(journal.synced().len(), 17);
        let body = [0, 1, 5, 0, 0, 0, 1, 0, 0, 0, 0, 0, 0, 1];
        assert!(journal.append(|out| out.extend_from_slice(&body)).is_ok());
        let mut disk = HEADER.to_vec();
        disk.extend_from_slice(&[1, 0, 0, 0, 14]);
        disk.extend_from_slice(&body);
        disk.push(0);
        assert_eq!(journal.synced(), disk);
        assert_eq!(journal.length, 36);
        assert_eq!(journal.batches.len(), 1);
    }

    #[test]
    fn the_last_octets_of_a_journal() {
        let mut journal = Journal::create(MemDisk::default());
        journal.length = 33_554_400;
        assert!(
            journal
                .check(28)
                .is_err_and(|full| (full.length, full.need) == (33_554_400, 33))
        );
        assert!(journal.check(27).is_ok());
    }
}
