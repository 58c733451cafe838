//! One client's session: it offers a pool, sends it piece by piece into
//! staging and has it activated, which copies it into the kept area.

use crate::faults::Fault;
use crate::pool::{Record, Refusal, MAX_POOL_BYTES};
use crate::rules::check;

const BAD_SIZE: u8 = 20;
const NOTHING_THERE: u8 = 21;
const BAD_PIECE: u8 = 22;
const INCOMPLETE: u8 = 23;
const FAULTY_POOL: u8 = 24;
const NOT_ACTIVE: u8 = 25;
const SHORT_AREA: u8 = 26;
const IMPOSSIBLE: u8 = 27;

#[derive(Clone, Copy, Debug, Default, PartialEq, Eq)]
pub enum Stage {
    #[default]
    None,
    Offered,
}

/// The session value. Its fields are wider than calls ever need: a caller may
/// hand in values that can't arise, which every call refuses.
#[derive(Clone, Copy, Debug, Default, PartialEq, Eq)]
pub struct Session {
    pub stage: Stage,
    pub announced: usize,
    pub received: usize,
    /// Size of the kept pool, 0 for none.
    pub kept: usize,
    pub active: bool,
}

/// Number 0 or a refusal. What an answer does not have is zero: only refusals
/// by reading have a place, and only 24 has a first fault.
#[derive(Clone, Copy, Debug, Default, PartialEq, Eq)]
pub struct Answer {
    pub number: u8,
    pub place: usize,
    pub fault: Fault,
}

/// What a call gives: its answer, and the value for the next call.
#[derive(Clone, Copy, Debug, PartialEq, Eq)]
pub struct Step {
    pub session: Session,
    pub answer: Answer,
}

impl Session {
    pub fn new() -> Self {
        Session::default()
    }

    /// Announces a pool of this size; an offer that stands is replaced.
    pub fn offer(self, size: usize, staging: &[u8], kept: &[u8]) -> Step {
        if !self.can_arise() {
            return self.refused(IMPOSSIBLE);
        }
        if size == 0 || size > MAX_POOL_BYTES {
            return self.refused(BAD_SIZE);
        }
        if size > staging.len() || size > kept.len() {
            return self.refused(SHORT_AREA);
        }
        let offered = Session {
            stage: Stage::Offered,
            announced: size,
            received: 0,
            ..self
        };
        offered.done()
    }

    /// Writes `piece` into staging, after what has been received.
    pub fn transfer(self, piece: &[u8], staging: &mut [u8]) -> Step {
        if !self.can_arise() {
            return self.refused(IMPOSSIBLE);
        }
        if self.stage != Stage::Offered {
            return self.refused(NOTHING_THERE);
        }
        if piece.is_empty() || piece.len() > self.announced - self.received {
            return self.refused(BAD_PIECE);
        }
        if staging.len() < self.announced {
            return self.refused(SHORT_AREA);
        }
        let received = self.received + piece.len();
        staging[self.received..received].copy_from_slice(piece);
        Session { received, ..self }.done()
    }

    /// Activates the offered pool or, with none offered, the kept one. The
    /// table is filled whenever the offered pool is read.
    pub fn activate(self, staging: &[u8], kept: &mut [u8], table: &mut [Record]) -> Step {
        if !self.can_arise() {
            return self.refused(IMPOSSIBLE);
        }
        match self.stage {
            Stage::None => self.activate_kept(kept),
            Stage::Offered => self.activate_offered(staging, kept, table),
        }
    }

    fn activate_kept(self, kept: &[u8]) -> Step {
        if self.kept == 0 {
            return self.refused(NOTHING_THERE);
        }
        if kept.len() < self.kept {
            return self.refused(SHORT_AREA);
        }
        let active = true;
        Session { active, ..self }.done()
    }

    fn activate_offered(self, staging: &[u8], kept: &mut [u8], table: &mut [Record]) -> Step {
        if self.received < self.announced {
            return self.refused(INCOMPLETE);
        }
        if staging.len() < self.announced || kept.len() < self.announced {
            return self.refused(SHORT_AREA);
        }
        let pool = &staging[..self.announced];
        let mut first = [Fault::default()];
        match check(pool, table, &mut first) {
            Ok(0) => {
                kept[..pool.len()].copy_from_slice(pool);
                let activated = Session {
                    kept: pool.len(),
                    active: true,
                    ..self.with_stage_ended()
                };
                activated.done()
            }
            Ok(_) => self.with_stage_ended().answering(Answer {
                number: FAULTY_POOL,
                place: 0,
                fault: first[0],
            }),
            Err(Refusal { number, place }) => {
                // The caller may try again with a longer table.
                let session = if number == Refusal::SHORT_TABLE {
                    self
                } else {
                    self.with_stage_ended()
                };
                session.answering(Answer {
                    number,
                    place,
                    fault: Fault::default(),
                })
            }
        }
    }

    pub fn deactivate(self) -> Step {
        if !self.can_arise() {
            return self.refused(IMPOSSIBLE);
        }
        if !self.active {
            return self.refused(NOT_ACTIVE);
        }
        let active = false;
        Session { active, ..self }.done()
    }

    pub fn delete(self) -> Step {
        if !self.can_arise() {
            return self.refused(IMPOSSIBLE);
        }
        let deleted = Session {
            kept: 0,
            active: false,
            ..self.with_stage_ended()
        };
        deleted.done()
    }

    /// The connection was lost.
    pub fn lost(self) -> Step {
        if !self.can_arise() {
            return self.refused(IMPOSSIBLE);
        }
        let lost = Session {
            active: false,
            ..self.with_stage_ended()
        };
        lost.done()
    }

    fn can_arise(&self) -> bool {
        let sizes_fit = self.announced <= MAX_POOL_BYTES && self.kept <= MAX_POOL_BYTES;
        let stage_fits = match self.stage {
            Stage::None => self.announced == 0 && self.received == 0,
            Stage::Offered => self.announced > 0 && self.received <= self.announced,
        };
        sizes_fit && stage_fits && (self.kept > 0 || !self.active)
    }

    fn with_stage_ended(self) -> Self {
        Session {
            stage: Stage::None,
            announced: 0,
            received: 0,
            ..self
        }
    }

    fn done(self) -> Step {
        self.answering(Answer::default())
    }

    fn refused(self, number: u8) -> Step {
        self.answering(Answer {
            number,
            ..Answer::default()
        })
    }

    fn answering(self, answer: Answer) -> Step {
        Step {
            session: self,
            answer,
        }
    }
}
