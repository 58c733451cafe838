//! One client's session.

use crate::c::{self, Record, Step};
use crate::pool::{place_of, write_refusal};
use crate::{Cause, Fault};
use core::error::Error;
use core::fmt;

/// A session call that is refused.
#[derive(Clone, Copy, Debug, PartialEq, Eq)]
#[non_exhaustive]
pub struct SessionRefusal {
    pub cause: Cause,
    /// As in [`Refusal`](crate::Refusal).
    pub place: Option<usize>,
    /// The pool's first fault, after [`Cause::Faulty`].
    pub fault: Option<Fault>,
}

impl fmt::Display for SessionRefusal {
    fn fmt(&self, f: &mut fmt::Formatter) -> fmt::Result {
        match self.fault {
            Some(fault) => write!(f, "{}: {fault}", self.cause),
            None => write_refusal(f, self.cause, self.place),
        }
    }
}

impl Error for SessionRefusal {}

/// One client's session: a pool is offered, transferred in pieces into the
/// staging area and activated into the kept area.
///
/// A session is only valid together with its areas: lend the same two to all
/// calls, and leave them unaltered between calls.
#[derive(Debug, PartialEq, Eq)]
pub struct Session {
    value: c::Session,
}

impl Session {
    /// Nothing offered, kept or active.
    pub fn new() -> Self {
        Session {
            value: c::session_new(),
        }
    }

    /// A session from its value, such as one that was stored. A value that no
    /// sequence of calls leads to is refused by every call.
    pub fn from_value(value: c::Session) -> Self {
        Session { value }
    }

    pub fn value(&self) -> c::Session {
        self.value
    }

    pub fn is_offered(&self) -> bool {
        self.value.stage == 1
    }

    pub fn is_active(&self) -> bool {
        self.value.active == 1
    }

    /// Size of the offered pool in bytes.
    pub fn announced(&self) -> usize {
        self.value.announced as usize
    }

    /// How many bytes of the offered pool have arrived.
    pub fn received(&self) -> usize {
        self.value.received as usize
    }

    /// Size in bytes of the kept pool, with which the kept area starts.
    pub fn kept(&self) -> usize {
        self.value.kept as usize
    }

    /// Announces the size of a pool; an earlier offer is forgotten. Of the
    /// areas only the lengths matter.
    pub fn offer(
        &mut self,
        size: usize,
        staging: &[u8],
        kept: &[u8],
    ) -> Result<(), SessionRefusal> {
        self.take(|step, value| c::session_offer(step, value, size, staging, kept))
    }

    /// Takes a piece into staging, after what has already arrived.
    pub fn transfer(&mut self, piece: &[u8], staging: &mut [u8]) -> Result<(), SessionRefusal> {
        self.take(|step, value| c::session_transfer(step, value, piece, staging))
    }

    /// Activates the pool that is offered, or else the one that is kept. An
    /// offered pool must have arrived in full and be accepted; it is then kept.
    /// One that does not divide into records or has a fault must be offered
    /// again; after [`Cause::StoppedEarly`] and [`Cause::ShortTable`] the offer
    /// stands.
    pub fn activate(
        &mut self,
        staging: &[u8],
        kept: &mut [u8],
        table: &mut [Record],
    ) -> Result<(), SessionRefusal> {
        self.take(|step, value| c::session_activate(step, value, staging, kept, table))
    }

    /// Makes the session inactive; the pool stays kept.
    pub fn deactivate(&mut self) -> Result<(), SessionRefusal> {
        self.take(c::session_deactivate)
    }

    /// Forgets the kept pool and any offer.
    pub fn delete(&mut self) -> Result<(), SessionRefusal> {
        self.take(c::session_delete)
    }

    /// The connection is lost: an offer is forgotten, a kept pool stays.
    pub fn lost(&mut self) -> Result<(), SessionRefusal> {
        self.take(c::session_lost)
    }

    /// Makes a call and takes the session value that it gives, even if it is
    /// refused.
    fn take(&mut self, call: impl FnOnce(&mut Step, c::Session)) -> Result<(), SessionRefusal> {
        let mut step = Step::default();
        call(&mut step, self.value);
        self.value = step.session;
        Cause::check(step.number).map_err(|cause| SessionRefusal {
            cause,
            place: place_of(cause, step.place),
            fault: (cause == Cause::Faulty).then_some(Fault {
                record: step.record,
                rule: step.rule,
                item: step.item,
                id: step.id,
                parent: step.parent,
            }),
        })
    }
}

impl Default for Session {
    fn default() -> Self {
        Session::new()
    }
}

#[cfg(test)]
mod tests {
    use super::*;
    use crate::pools::q;
    use std::string::ToString;

    const AREA: usize = 80;

    fn cause(result: Result<(), SessionRefusal>) -> Option<Cause> {
        result.err().map(|refusal| refusal.cause)
    }

    #[test]
    fn a_pool_is_received_in_pieces_and_activated() {
        let (mut staging, mut kept) = ([0xA5; AREA], [0x5A; AREA]);
        let mut table = [Record::default(); 4];
        let pool = q();
        let mut session = Session::new();
        session.offer(pool.len(), &staging, &kept).unwrap();
        assert_eq!((session.is_offered(), session.announced()), (true, 71));
        session.transfer(&pool[..44], &mut staging).unwrap();
        // 44 bytes end between two records and divide into two.
        let early = session.activate(&staging, &mut kept, &mut table);
        assert_eq!(cause(early), Some(Cause::StoppedEarly));
        assert_eq!((session.is_offered(), session.received()), (true, 44));
        session.transfer(&pool[44..], &mut staging).unwrap();
        session.activate(&staging, &mut kept, &mut table).unwrap();
        assert_eq!(kept[..71], pool);
        assert_eq!(kept[71..], [0x5A; AREA - 71]);
        assert_eq!(staging[..71], pool);
        assert!(session.is_active() && !session.is_offered());
        assert_eq!((session.kept(), session.received()), (71, 0));
        session.lost().unwrap();
        assert_eq!((session.kept(), session.is_active()), (71, false));
        session.activate(&staging, &mut kept, &mut []).unwrap();
        session.deactivate().unwrap();
        assert_eq!(cause(session.deactivate()), Some(Cause::NotActive));
        session.delete().unwrap();
        assert_eq!(session, Session::new());
    }

    #[test]
    fn a_faulty_pool_is_refused_with_its_first_fault() {
        let (mut staging, mut kept) = ([0; AREA], [7; AREA]);
        let mut table = [Record::default(); 4];
        let mut session = Session::new();
        session.offer(59, &staging, &kept).unwrap();
        session.transfer(&q()[..59], &mut staging).unwrap();
        let refusal = session.activate(&staging, &mut kept, &mut table);
        let fault = Fault {
            record: 3,
            rule: 6,
            item: 2,
            id: 2,
            parent: 1,
        };
        assert_eq!(
            refusal,
            Err(SessionRefusal {
                cause: Cause::Faulty,
                place: None,
                fault: Some(fault)
            })
        );
        assert_eq!(
            refusal.unwrap_err().to_string(),
            "24: the pool has a fault: ID 2 under parent 1, record 3, rule 6, item 2"
        );
        assert_eq!(kept, [7; AREA]);
        assert!(!session.is_offered());
    }

    #[test]
    fn a_short_table_leaves_the_offer() {
        let (mut staging, mut kept) = ([0; AREA], [0; AREA]);
        let mut table = [Record::default(); 4];
        let mut session = Session::new();
        session.offer(71, &staging, &kept).unwrap();
        session.transfer(&q(), &mut staging).unwrap();
        let refusal = session
            .activate(&staging, &mut kept, &mut table[..2])
            .unwrap_err();
        assert_eq!((refusal.cause, refusal.place), (Cause::ShortTable, Some(4)));
        session.activate(&staging, &mut kept, &mut table).unwrap();
    }

    #[test]
    fn a_value_that_cannot_arise_is_refused_and_stays() {
        let values = [
            (2, 0, 0, 0, 0),
            (257, 0, 0, 0, 0),
            (0, 2, 0, 0, 1),
            (0, 256, 0, 0, 1),
            (0, 1, 0, 0, 0),
            (1, 0, 3, 4, 0),
            (0, 0, 1, 0, 0),
            (0, 0, 0, 0, 65_536),
        ];
        for (stage, active, announced, received, kept) in values {
            let value = c::Session {
                stage,
                active,
                announced,
                received,
                kept,
            };
            let mut session = Session::from_value(value);
            assert_eq!(cause(session.delete()), Some(Cause::ImpossibleSession));
            assert_eq!(session.value(), value);
        }
    }

    #[test]
    fn offers_and_pieces_are_refused_by_their_size() {
        let mut staging = [0; 10];
        let mut session = Session::new();
        let none = session.transfer(b"D", &mut staging).unwrap_err();
        assert_eq!((none.cause, none.place), (Cause::NothingOffered, None));
        assert_eq!(
            none.to_string(),
            "21: nothing is offered, and nothing kept that could be activated"
        );
        assert_eq!(
            cause(session.offer(0, &staging, &[0; 10])),
            Some(Cause::BadSize)
        );
        assert_eq!(
            cause(session.offer(10, &staging, &[0; 9])),
            Some(Cause::ShortArea)
        );
        session.offer(10, &staging, &[0; 10]).unwrap();
        assert_eq!(
            cause(session.transfer(b"", &mut staging)),
            Some(Cause::BadPiece)
        );
        assert_eq!(
            cause(session.transfer(&[1; 11], &mut staging)),
            Some(Cause::BadPiece)
        );
        assert_eq!(staging, [0; 10]);
    }
}
