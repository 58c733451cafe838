//! One session call, by each side.

use super::library::{impossible, session_in, unwritten, Step, Value};
use crate::calls::{lent_table, untouched};
use crate::lent::{Lent, LentArea, LentPool};
use crate::library::{Of, ENTRY_WORDS};
use lachsbrille::c::{self, Record as TableEntry};
use second::{Book, Entry};
use std::fmt;

#[derive(Clone)]
pub enum Call {
    Offer(usize),
    Transfer(Vec<u8>),
    /// With a table of this many words.
    Activate(usize),
    Deactivate,
    Delete,
    Lost,
}

/// The areas of one side.
pub struct Areas {
    pub staging: LentArea,
    pub kept: LentArea,
}

impl Call {
    /// Makes the library's call, and gives the table it leaves.
    pub fn by_library(&self, value: Value, areas: &mut Areas) -> Result<(Step, Lent), String> {
        let Areas { staging, kept } = areas;
        let mut table = Lent::default();
        let mut step = unwritten();
        let out = &mut step;
        match self {
            Call::Offer(size) => {
                c::session_offer(out, value, *size, staging.contents(), kept.contents());
            }
            Call::Transfer(piece) => {
                let piece = LentPool::new(piece);
                c::session_transfer(out, value, piece.bytes(), staging.contents_mut());
                if piece.is_changed() {
                    return Err("the piece was changed".into());
                }
            }
            Call::Activate(words) => {
                table = lent_table(&untouched(words / ENTRY_WORDS), *words);
                let table = TableEntry::table(table.words());
                c::session_activate(out, value, staging.contents(), kept.contents_mut(), table);
            }
            Call::Deactivate => c::session_deactivate(out, value),
            Call::Delete => c::session_delete(out, value),
            Call::Lost => c::session_lost(out, value),
        }
        Ok((step, table))
    }

    /// Makes the second implementation's call, which gets as many entries as
    /// fit into the words, and gives the table it leaves.
    pub fn by_second(&self, value: Value, areas: &mut Areas) -> (Step, Lent) {
        let mut table = untouched(self.table_words() / ENTRY_WORDS);
        let step = match session_in(value) {
            None => impossible(value),
            Some(session) => {
                let Areas { staging, kept } = areas;
                Step::of(match self {
                    Call::Offer(size) => session.offer(*size, staging.contents(), kept.contents()),
                    Call::Transfer(piece) => session.transfer(piece, staging.contents_mut()),
                    Call::Activate(_) => {
                        session.activate(staging.contents(), kept.contents_mut(), &mut table)
                    }
                    Call::Deactivate => session.deactivate(),
                    Call::Delete => session.delete(),
                    Call::Lost => session.lost(),
                })
            }
        };
        let table = match self {
            Call::Activate(words) => lent_table(&table, *words),
            _ => Lent::default(),
        };
        (step, table)
    }

    /// Enters the call into the book, which knows only the areas' lengths.
    pub fn by_book(&self, book: &mut Book, staging: usize, kept: usize) -> Entry {
        match self {
            Call::Offer(size) => book.offer(*size, staging, kept),
            Call::Transfer(piece) => book.transfer(piece, staging),
            Call::Activate(words) => book.activate(staging, kept, words / ENTRY_WORDS),
            Call::Deactivate => book.deactivate(),
            Call::Delete => book.delete(),
            Call::Lost => book.lost(),
        }
    }

    fn table_words(&self) -> usize {
        match self {
            Call::Activate(words) => *words,
            _ => 0,
        }
    }
}

impl fmt::Display for Call {
    fn fmt(&self, f: &mut fmt::Formatter) -> fmt::Result {
        match self {
            Call::Offer(size) => write!(f, "offer of {size}"),
            Call::Transfer(piece) => {
                write!(f, "transfer of {} bytes:", piece.len())?;
                piece.iter().try_for_each(|byte| write!(f, " {byte:02X}"))
            }
            Call::Activate(words) => write!(f, "activate, table of {words} words"),
            Call::Deactivate => write!(f, "deactivate"),
            Call::Delete => write!(f, "delete"),
            Call::Lost => write!(f, "lost connection"),
        }
    }
}
