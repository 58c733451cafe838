//! The plain book of one client's calls. It gets their arguments and the
//! lengths of the areas, and holds the bytes itself. Sessions are judged by it,
//! although it knows neither their value nor the contents of their areas.

use crate::faults::Fault;
use crate::pool::{Record, MAX_POOL_BYTES};
use crate::rules::check;

/// How a call ends in the book.
#[derive(Clone, Copy, Debug, PartialEq, Eq)]
pub enum Entry {
    Taken,
    Refused(u8),
    /// Reading the pool that arrived gave this number and place.
    Unread(u8, usize),
    /// Refusal 24, with the first fault.
    Faulty(Fault),
}

#[derive(Clone, Debug, Default, PartialEq, Eq)]
pub struct Book {
    /// The announced size while a pool is offered.
    offer: Option<usize>,
    arrived: Vec<u8>,
    kept: Vec<u8>,
    active: bool,
}

impl Book {
    pub fn new() -> Self {
        Book::default()
    }

    /// The announced size, or `None` if nothing is offered.
    pub fn offered(&self) -> Option<usize> {
        self.offer
    }

    pub fn arrived(&self) -> &[u8] {
        &self.arrived
    }

    pub fn kept(&self) -> &[u8] {
        &self.kept
    }

    pub fn is_active(&self) -> bool {
        self.active
    }

    pub fn offer(&mut self, size: usize, staging_len: usize, kept_len: usize) -> Entry {
        if !(1..=MAX_POOL_BYTES).contains(&size) {
            Entry::Refused(20)
        } else if size > staging_len.min(kept_len) {
            Entry::Refused(26)
        } else {
            self.offer = Some(size);
            self.arrived.clear();
            Entry::Taken
        }
    }

    pub fn transfer(&mut self, piece: &[u8], staging_len: usize) -> Entry {
        let Some(size) = self.offer else {
            return Entry::Refused(21);
        };
        if piece.is_empty() || self.arrived.len() + piece.len() > size {
            Entry::Refused(22)
        } else if staging_len < size {
            Entry::Refused(26)
        } else {
            self.arrived.extend(piece);
            Entry::Taken
        }
    }

    /// Of the table only the number of entries matters.
    pub fn activate(&mut self, staging_len: usize, kept_len: usize, entries: usize) -> Entry {
        match self.offer {
            Some(size) if self.arrived.len() < size => Entry::Refused(23),
            Some(size) if staging_len.min(kept_len) < size => Entry::Refused(26),
            Some(_) => self.judge_arrived(entries),
            None if self.kept.is_empty() => Entry::Refused(21),
            None if kept_len < self.kept.len() => Entry::Refused(26),
            None => {
                self.active = true;
                Entry::Taken
            }
        }
    }

    fn judge_arrived(&mut self, entries: usize) -> Entry {
        let mut table = vec![Record::default(); entries];
        let mut first = [Fault::default()];
        let entry = match check(&self.arrived, &mut table, &mut first) {
            Err(refusal) if refusal.number == 7 => return Entry::Unread(7, refusal.place),
            Err(refusal) => Entry::Unread(refusal.number, refusal.place),
            Ok(0) => {
                self.kept = self.arrived.clone();
                self.active = true;
                Entry::Taken
            }
            Ok(_) => Entry::Faulty(first[0]),
        };
        self.end_stage();
        entry
    }

    pub fn deactivate(&mut self) -> Entry {
        if !self.active {
            return Entry::Refused(25);
        }
        self.active = false;
        Entry::Taken
    }

    pub fn delete(&mut self) -> Entry {
        self.end_stage();
        self.active = false;
        self.kept.clear();
        Entry::Taken
    }

    pub fn lost(&mut self) -> Entry {
        self.end_stage();
        self.active = false;
        Entry::Taken
    }

    fn end_stage(&mut self) {
        self.offer = None;
        self.arrived.clear();
    }
}
