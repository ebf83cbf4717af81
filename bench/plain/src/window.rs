//! The window of one lane that leaves a node, and the memory of the frames heard on the link's
//! other lane.
//!
//! Ages are kept as the tick at which an entry is due, so that a tick touches only the entries
//! that become due.

use crate::base::{KeyName, REPEATS_PER_TICK, RESEND_AGE};
use std::collections::{BTreeMap, BTreeSet, VecDeque};

struct Entry {
    /// The frame, which goes out again with the same bytes.
    frame: Box<[u8]>,
    number: u64,
    /// The tick at which a fact's entry is due; None for an acknowledgement.
    due_at: Option<u64>,
}

/// An acknowledgement due that wasn't emitted yet, or the offset at which it was.
#[derive(Clone, Copy)]
enum Answer {
    Waiting,
    Emitted(u64),
}

#[derive(Default)]
pub struct Window {
    entries: BTreeMap<u64, Entry>,
    by_name: BTreeMap<KeyName, u64>,
    /// Offsets of entries that are due at the next tick.
    due: BTreeSet<u64>,
    /// The tick at which the other entries of facts are due, with their offsets.
    sleeping: BTreeSet<(u64, u64)>,
    answers: BTreeMap<u64, Answer>,
    waiting: VecDeque<(u64, KeyName)>,
}

impl Window {
    /// Puts a frame in that was sent in tick number `now`.
    pub fn hold(
        &mut self,
        now: u64,
        offset: u64,
        name: KeyName,
        ack_of: Option<u64>,
        frame: &[u8],
        number: u64,
    ) {
        let due_at = match ack_of {
            Some(heard) => {
                self.answers.insert(heard, Answer::Emitted(offset));
                None
            }
            None => {
                self.by_name.insert(name, offset);
                self.sleeping.insert((now + RESEND_AGE, offset));
                Some(now + RESEND_AGE)
            }
        };
        self.entries.insert(
            offset,
            Entry {
                frame: frame.into(),
                number,
                due_at,
            },
        );
    }

    /// Removes the entry of the fact of that name.
    pub fn cleared(&mut self, name: KeyName) {
        let Some(offset) = self.by_name.remove(&name) else {
            return;
        };
        if let Some(Entry {
            due_at: Some(due_at),
            ..
        }) = self.entries.remove(&offset)
        {
            self.sleeping.remove(&(due_at, offset));
            self.due.remove(&offset);
        }
    }

    /// The offsets and wire numbers that are due at the next tick.
    pub fn repeats(&self) -> Vec<(u64, u64)> {
        self.due
            .iter()
            .take(REPEATS_PER_TICK)
            .map(|offset| (*offset, self.entries[offset].number))
            .collect()
    }

    /// The end of tick number `now`, which emitted these repeats.
    pub fn tick(&mut self, now: u64, emitted: &[(u64, u64)]) {
        for (offset, _) in emitted {
            self.due.remove(offset);
            if let Some(due_at) = self
                .entries
                .get_mut(offset)
                .and_then(|entry| entry.due_at.as_mut())
            {
                *due_at = now + RESEND_AGE;
                self.sleeping.insert((*due_at, *offset));
            }
        }
        while let Some(&(due_at, offset)) = self.sleeping.first()
            && due_at <= now + 1
        {
            self.sleeping.pop_first();
            self.due.insert(offset);
        }
    }

    /// Notes the wire number of a repeat, and answers the length of its frame.
    pub fn placed(&mut self, offset: u64, number: u64) -> Option<usize> {
        let entry = self.entries.get_mut(&offset)?;
        entry.number = number;
        Some(entry.frame.len())
    }

    /// A frame was heard at that offset of the link's other lane.
    pub fn heard(&mut self, offset: u64, name: KeyName) {
        match self.answers.get(&offset) {
            None => {
                self.answers.insert(offset, Answer::Waiting);
                self.waiting.push_back((offset, name));
            }
            Some(Answer::Waiting) => {}
            Some(&Answer::Emitted(at)) => {
                self.due.insert(at);
            }
        }
    }

    /// The acknowledgements not yet emitted, in order of arrival.
    pub fn waiting(&self) -> impl Iterator<Item = &(u64, KeyName)> {
        self.waiting.iter()
    }

    /// The first `n` of them are on their way to the wire.
    pub fn emitting(&mut self, n: usize) {
        self.waiting.drain(..n);
    }
}
