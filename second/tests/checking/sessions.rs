//! Single session calls, on any value and any areas, and the book's branches
//! that a list with the same areas does not reach.

use crate::pools::{pool_p, pool_q};
use second::{read_pool, Answer, Book, Entry, Kind, Record, Session, Stage, Step};

const UNTOUCHED: Record = Record {
    start: 0xA5A5,
    length: 0x5A5A,
    kind: Kind::Dvp,
    id: 0xC3C3,
    parent: 0x3C3C,
};

fn offered(announced: usize, received: usize) -> Session {
    Session {
        stage: Stage::Offered,
        announced,
        received,
        ..Session::new()
    }
}

fn keeping(kept: usize, active: bool) -> Session {
    Session {
        kept,
        active,
        ..Session::new()
    }
}

fn done(session: Session) -> Step {
    let answer = Answer::default();
    Step { session, answer }
}

/// The value is unchanged, and the answer is the number with zeros.
fn refused(session: Session, number: u8) -> Step {
    let answer = Answer {
        number,
        ..Answer::default()
    };
    Step { session, answer }
}

#[test]
fn values_that_cannot_arise_are_27_in_every_call() {
    let pool = pool_q();
    for session in [
        offered(65_536, 0),
        offered(usize::MAX, usize::MAX),
        offered(0, 0),
        offered(71, 72),
        keeping(65_536, false),
        keeping(65_536, true),
        keeping(0, true),
        Session {
            stage: Stage::None,
            ..offered(71, 0)
        },
        Session {
            stage: Stage::None,
            ..offered(71, 71)
        },
        Session {
            stage: Stage::None,
            ..offered(0, 1)
        },
        Session {
            active: true,
            ..offered(71, 71)
        },
    ] {
        let mut staging = [&pool[..], &[7; 9]].concat();
        let mut kept = vec![9; 80];
        let mut table = [UNTOUCHED; 5];
        let expected = refused(session, 27);
        assert_eq!(session.offer(0, &staging, &kept), expected);
        assert_eq!(session.offer(71, &staging, &kept), expected);
        assert_eq!(session.transfer(&[], &mut staging), expected);
        assert_eq!(session.transfer(&[1], &mut staging), expected);
        let activated = session.activate(&staging, &mut kept, &mut table);
        assert_eq!(activated, expected);
        assert_eq!(session.deactivate(), expected);
        assert_eq!(session.delete(), expected);
        assert_eq!(session.lost(), expected);
        assert_eq!(staging, [&pool[..], &[7; 9]].concat());
        assert_eq!((kept, table), (vec![9; 80], [UNTOUCHED; 5]));
    }
}

#[test]
fn the_widest_values_that_can_arise_are_taken() {
    let widest = Session {
        kept: 65_535,
        active: true,
        ..offered(65_535, 65_535)
    };
    assert_eq!(
        widest.lost(),
        done(Session {
            kept: 65_535,
            ..Session::new()
        })
    );
    assert_eq!(widest.delete(), done(Session::new()));
    let active = false;
    assert_eq!(widest.deactivate(), done(Session { active, ..widest }));
}

#[test]
fn an_offer_has_to_fit_both_areas() {
    let session = keeping(9, true);
    for (size, staging, kept, number) in [
        (0, 0, 0, 20),
        (65_536, 0, 0, 20),
        (1, 0, 1, 26),
        (1, 1, 0, 26),
        (65_535, 65_534, 65_535, 26),
        (65_535, 65_535, 65_534, 26),
    ] {
        let step = session.offer(size, &vec![0; staging], &vec![0; kept]);
        assert_eq!(step, refused(session, number));
    }
    let expected = Session {
        kept: 9,
        active: true,
        ..offered(65_535, 0)
    };
    let step = session.offer(65_535, &[0; 65_535], &[0; 65_535]);
    assert_eq!(step, done(expected));
}

#[test]
fn a_piece_is_written_behind_what_was_received() {
    let mut staging = [0; 8];
    let step = offered(6, 2).transfer(&[1, 2, 3], &mut staging);
    assert_eq!(step, done(offered(6, 5)));
    assert_eq!(staging, [0, 0, 1, 2, 3, 0, 0, 0]);
}

#[test]
fn a_refused_piece_writes_nothing_and_22_comes_before_26() {
    let session = offered(6, 2);
    for (piece, length, number) in [(0, 5, 22), (5, 5, 22), (0, 6, 22), (5, 6, 22), (3, 5, 26)] {
        let mut staging = vec![0; length];
        let step = session.transfer(&vec![1; piece], &mut staging);
        assert_eq!(step, refused(session, number));
        assert_eq!(staging, vec![0; length]);
    }
    let session = keeping(5, true);
    let step = session.transfer(&[], &mut []);
    assert_eq!(step, refused(session, 21));
}

#[test]
fn a_kept_pool_is_activated_without_a_look_at_it() {
    let mut table = [UNTOUCHED; 3];
    for active in [false, true] {
        let session = keeping(5, active);
        let step = session.activate(&[], &mut [0; 4], &mut table);
        assert_eq!(step, refused(session, 26));
        let step = session.activate(&[], &mut [0; 5], &mut table);
        assert_eq!(step, done(keeping(5, true)));
    }
    assert_eq!(table, [UNTOUCHED; 3]);
}

#[test]
fn an_early_activate_is_23_before_26() {
    let session = offered(71, 70);
    let step = session.activate(&[], &mut [], &mut []);
    assert_eq!(step, refused(session, 23));
    let session = offered(71, 71);
    for (staging, kept) in [(70, 71), (71, 70), (0, 0)] {
        let mut table = [UNTOUCHED; 4];
        let pool = &pool_q()[..staging];
        let mut kept = vec![9; kept];
        let step = session.activate(pool, &mut kept, &mut table);
        assert_eq!(step, refused(session, 26));
        assert!(kept.iter().all(|&byte| byte == 9));
        assert_eq!(table, [UNTOUCHED; 4]);
    }
}

#[test]
fn the_table_is_filled_whenever_the_pool_is_read() {
    let mut faulty = pool_p();
    faulty[40] = 1;
    for pool in [pool_p(), faulty] {
        let mut read = [UNTOUCHED; 3];
        read_pool(&pool, &mut read).unwrap();
        let mut table = [UNTOUCHED; 3];
        let session = offered(pool.len(), pool.len());
        session.activate(&pool, &mut [0; 50], &mut table);
        assert_eq!(table, read);
    }
    let mut table = [UNTOUCHED; 1];
    let step = offered(44, 44).activate(&pool_p(), &mut [0; 50], &mut table);
    assert_eq!((step.answer.number, step.answer.place), (7, 2));
    assert_eq!(table, [UNTOUCHED; 1]);
}

#[test]
fn the_book_refuses_areas_that_have_become_shorter() {
    let pool = pool_p();
    let mut book = Book::new();
    assert_eq!(book.offer(44, 44, 44), Entry::Taken);
    assert_eq!(book.transfer(&pool, 43), Entry::Refused(26));
    assert_eq!(book.transfer(&pool, 44), Entry::Taken);
    assert_eq!(book.activate(43, 44, 2), Entry::Refused(26));
    assert_eq!(book.activate(44, 43, 2), Entry::Refused(26));
    assert_eq!(book.activate(44, 44, 2), Entry::Taken);
    assert_eq!(book.activate(0, 43, 0), Entry::Refused(26));
    assert_eq!(book.activate(0, 44, 0), Entry::Taken);
    assert_eq!((book.kept(), book.arrived()), (&pool[..], &[][..]));
}
