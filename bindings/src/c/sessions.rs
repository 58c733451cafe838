//! A client's session.

use super::declared::{
    lachsbrille_session_activate, lachsbrille_session_deactivate, lachsbrille_session_delete,
    lachsbrille_session_lost, lachsbrille_session_new, lachsbrille_session_offer,
    lachsbrille_session_transfer,
};
use super::structs::{Record, Session, Step};

/// A new session: nothing offered, kept or active.
#[inline]
pub fn session_new() -> Session {
    // SAFETY: the function takes nothing and gives numbers.
    unsafe { lachsbrille_session_new() }
}

/// Announces the size of a pool. Of the areas only the lengths matter.
#[inline]
pub fn session_offer(out: &mut Step, session: Session, size: usize, staging: &[u8], kept: &[u8]) {
    // SAFETY: both areas and the result are live for the whole call, and the
    // pointer of an empty slice is not null. Neither area is written.
    unsafe {
        lachsbrille_session_offer(
            out,
            session,
            size,
            staging.as_ptr(),
            staging.len(),
            kept.as_ptr(),
            kept.len(),
        )
    }
}

/// Takes a piece into staging.
#[inline]
pub fn session_transfer(out: &mut Step, session: Session, piece: &[u8], staging: &mut [u8]) {
    // SAFETY: as for an offer; piece and staging do not overlap.
    unsafe {
        lachsbrille_session_transfer(
            out,
            session,
            piece.as_ptr(),
            piece.len(),
            staging.as_mut_ptr(),
            staging.len(),
        )
    }
}

/// Activates the pool that is offered, or else the one that is kept.
#[inline]
pub fn session_activate(
    out: &mut Step,
    session: Session,
    staging: &[u8],
    kept: &mut [u8],
    table: &mut [Record],
) {
    // SAFETY: as for an offer; the three areas do not overlap.
    unsafe {
        lachsbrille_session_activate(
            out,
            session,
            staging.as_ptr(),
            staging.len(),
            kept.as_mut_ptr(),
            kept.len(),
            table.as_mut_ptr(),
            table.len(),
        )
    }
}

/// Makes the session inactive.
#[inline]
pub fn session_deactivate(out: &mut Step, session: Session) {
    // SAFETY: the result is live for the whole call.
    unsafe { lachsbrille_session_deactivate(out, session) }
}

/// Forgets the kept pool and any offer.
#[inline]
pub fn session_delete(out: &mut Step, session: Session) {
    // SAFETY: as for deactivating.
    unsafe { lachsbrille_session_delete(out, session) }
}

/// The connection is lost.
#[inline]
pub fn session_lost(out: &mut Step, session: Session) {
    // SAFETY: as for deactivating.
    unsafe { lachsbrille_session_lost(out, session) }
}
