//! Sessions of the proved static library, through its bindings, and those of
//! the second implementation and of the book in the library's form.

pub use lachsbrille::c::{Session as Value, Step};

use crate::library::{Of, UNWRITTEN};
use second::{Book, Entry, Fault, Session, Stage};

/// Given for values that can't arise.
const IMPOSSIBLE: u32 = 27;

/// A step that no call gives, so that a field which is not written is noticed.
/// A fault's IDs may be 65535, so these are numbers that no pool has by chance.
pub fn unwritten() -> Step {
    let session = Value {
        announced: u32::MAX,
        received: u32::MAX,
        kept: u32::MAX,
        stage: u16::MAX,
        active: u16::MAX,
    };
    let fault = Fault {
        record: u16::MAX,
        rule: u8::MAX,
        item: u16::MAX,
        id: 0xA5C3,
        parent: 0xC35A,
    };
    step(session, u32::MAX, UNWRITTEN, fault)
}

/// Starts from the default, in case the library's step gets more fields.
fn step(session: Value, number: u32, place: usize, fault: Fault) -> Step {
    let mut step = Step::default();
    step.session = session;
    step.number = number;
    step.place = place;
    step.record = fault.record;
    step.rule = fault.rule.into();
    step.item = fault.item;
    step.id = fault.id;
    step.parent = fault.parent;
    step
}

/// A size of a session as the library has it.
fn size(size: usize) -> u32 {
    size.try_into().expect("a session's sizes have 32 bits")
}

impl Of<Session> for Value {
    fn of(session: Session) -> Self {
        Value {
            announced: size(session.announced),
            received: size(session.received),
            kept: size(session.kept),
            stage: (session.stage == Stage::Offered).into(),
            active: session.active.into(),
        }
    }
}

impl Of<&Book> for Value {
    fn of(book: &Book) -> Self {
        Value {
            announced: size(book.offered().unwrap_or(0)),
            received: size(book.arrived().len()),
            kept: size(book.kept().len()),
            stage: book.offered().is_some().into(),
            active: book.is_active().into(),
        }
    }
}

impl Of<second::Step> for Step {
    fn of(given: second::Step) -> Self {
        let answer = given.answer;
        let session = Value::of(given.session);
        step(session, answer.number.into(), answer.place, answer.fault)
    }
}

/// The book after a call, and what it entered.
impl Of<(&Book, Entry)> for Step {
    fn of((book, entry): (&Book, Entry)) -> Self {
        let none = Fault::default();
        let (number, place, fault) = match entry {
            Entry::Taken => (0, 0, none),
            Entry::Refused(number) => (number, 0, none),
            Entry::Unread(number, place) => (number, place, none),
            Entry::Faulty(fault) => (24, 0, fault),
        };
        step(Value::of(book), number.into(), place, fault)
    }
}

/// The value in the second implementation's form, which has none for a stage or
/// active of 2 or more.
pub fn session_in(value: Value) -> Option<Session> {
    if value.stage > 1 || value.active > 1 {
        return None;
    }
    Some(Session {
        stage: [Stage::None, Stage::Offered][usize::from(value.stage)],
        announced: value.announced as usize,
        received: value.received as usize,
        kept: value.kept as usize,
        active: value.active == 1,
    })
}

/// The refusal of a value that can't arise.
pub fn impossible(value: Value) -> Step {
    step(value, IMPOSSIBLE, 0, Fault::default())
}
