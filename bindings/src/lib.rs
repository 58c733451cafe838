//! The proved core of a task controller according to ISO 11783-10, for Rust.
//!
//! Pools are read and checked over a lent working table, clients' sessions
//! receive and activate them, and process data messages and log records are
//! read and written. Each function calls the compiled, proved library; nothing
//! is computed here a second time. No call uses a heap or keeps any state, and
//! nothing of `std` is used.
//!
//! A call that is refused gives its [`Cause`], with a place or a fault where
//! there is one, and leaves lent memory as it was unless its description says
//! otherwise. [`c`] has the same calls with the numbers as C gets them.
//!
//! ```
//! use lachsbrille::{Cause, Object, Record, Session};
//!
//! // A device and a device element.
//! let pool = b"DVC\0\0\0\0\0\0\0\0\0\0\0\0\0\x01\x01\x01\x01\x01\x01\x01en\0\0\0\0\xFF\0\
//!              DET\x01\0\x01\0\0\0\0\0\0\0";
//! let (mut staging, mut kept) = ([0; 100], [0; 100]);
//! let mut table = [Record::default(); 10];
//!
//! let mut session = Session::new();
//! session.offer(pool.len(), &staging, &kept)?;
//! session.transfer(&pool[..31], &mut staging)?;
//! let early = session.activate(&staging, &mut kept, &mut table);
//! assert_eq!(early.unwrap_err().cause, Cause::StoppedEarly);
//!
//! session.transfer(&pool[31..], &mut staging)?;
//! session.activate(&staging, &mut kept, &mut table)?;
//!
//! // The fields of its records, each by the table's entry.
//! let active = &kept[..session.kept()];
//! let Some(Object::DeviceElement(element)) = table[1].object(active) else {
//!     panic!("the second record is a device element");
//! };
//! assert_eq!((element.element_type, element.number), (1, 0));
//! assert_eq!(element.entries().count(), 0);
//! # Ok::<(), Box<dyn std::error::Error>>(())
//! ```

#![no_std]

#[cfg(test)]
extern crate std;

pub mod c;
mod cause;
mod exchange;
pub mod log;
mod objects;
mod pool;
#[cfg(test)]
mod pools;
mod session;

pub use c::{version, LogFields, Record};
pub use cause::Cause;
pub use exchange::{commands, displayed, errors, judge, Message, Presentation};
pub use objects::{
    properties, triggers, Device, DeviceElement, Object, ProcessData, Property, ValuePresentation,
    NO_ID,
};
pub use pool::{check, labels, read, text, text_is_sound, Fault, Kind, Labels, Refusal};
pub use session::{Session, SessionRefusal};
