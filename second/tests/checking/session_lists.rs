//! Lists of session calls, by the session and by the book.

use crate::pools::{after_device, fault, pool, pool_p, pool_q, Det, Dpd, Dvc};
use second::{Book, Entry, Fault, Record, Session, Stage};

/// A session with its areas, and the book of the same calls.
struct Client {
    session: Session,
    staging: Vec<u8>,
    kept: Vec<u8>,
    book: Book,
}

/// Number, place and first fault.
type Answer = (u8, usize, Fault);

fn answer_of(entry: Entry) -> Answer {
    match entry {
        Entry::Taken => (0, 0, Fault::default()),
        Entry::Refused(number) => (number, 0, Fault::default()),
        Entry::Unread(number, place) => (number, place, Fault::default()),
        Entry::Faulty(fault) => (24, 0, fault),
    }
}

impl Client {
    fn new(staging: usize, kept: usize) -> Self {
        Client {
            session: Session::new(),
            staging: vec![0xA5; staging],
            kept: vec![0x5A; kept],
            book: Book::new(),
        }
    }

    fn offer(&mut self, size: usize) -> Answer {
        let step = self.session.offer(size, &self.staging, &self.kept);
        let entry = self.book.offer(size, self.staging.len(), self.kept.len());
        self.agreed(step, entry)
    }

    fn transfer(&mut self, piece: &[u8]) -> Answer {
        let step = self.session.transfer(piece, &mut self.staging);
        let entry = self.book.transfer(piece, self.staging.len());
        self.agreed(step, entry)
    }

    fn activate(&mut self, entries: usize) -> Answer {
        let table = &mut vec![Record::default(); entries];
        let step = self.session.activate(&self.staging, &mut self.kept, table);
        let (staging, kept) = (self.staging.len(), self.kept.len());
        let entry = self.book.activate(staging, kept, entries);
        self.agreed(step, entry)
    }

    fn deactivate(&mut self) -> Answer {
        let entry = self.book.deactivate();
        self.agreed(self.session.deactivate(), entry)
    }

    fn delete(&mut self) -> Answer {
        let entry = self.book.delete();
        self.agreed(self.session.delete(), entry)
    }

    fn lost(&mut self) -> Answer {
        let entry = self.book.lost();
        self.agreed(self.session.lost(), entry)
    }

    /// The answer, after asserting that the book agrees on it, on the fields
    /// and on the areas.
    fn agreed(&mut self, step: second::Step, entry: Entry) -> Answer {
        let second::Answer {
            number,
            place,
            fault,
        } = step.answer;
        assert_eq!((number, place, fault), answer_of(entry));
        let book = &self.book;
        let by_book = Session {
            stage: book.offered().map_or(Stage::None, |_| Stage::Offered),
            announced: book.offered().unwrap_or(0),
            received: book.arrived().len(),
            kept: book.kept().len(),
            active: book.is_active(),
        };
        assert_eq!(step.session, by_book);
        assert!(self.staging.starts_with(book.arrived()));
        assert!(self.kept.starts_with(book.kept()));
        self.session = step.session;
        (number, place, fault)
    }

    /// Stage, announced, received, kept size and active.
    fn fields(&self) -> (bool, usize, usize, usize, bool) {
        let it = self.session;
        let offered = it.stage == Stage::Offered;
        (offered, it.announced, it.received, it.kept, it.active)
    }
}

const fn number(number: u8) -> Answer {
    refusal(number, 0)
}

const fn refusal(number: u8, place: usize) -> Answer {
    (number, place, fault(0, 0, 0, 0, 0))
}

const DONE: Answer = number(0);

/// The worked line.
#[test]
fn q_announced_as_71_with_its_first_44_sent_is_23() {
    let mut client = Client::new(71, 71);
    assert_eq!(client.offer(71), DONE);
    assert_eq!(client.transfer(&pool_q()[..44]), DONE);
    assert_eq!(client.activate(4), number(23));
    assert_eq!(client.fields(), (true, 71, 44, 0, false));
    assert_eq!(client.transfer(&pool_q()[44..]), DONE);
    assert_eq!(client.activate(4), DONE);
    assert_eq!(client.fields(), (false, 0, 0, 71, true));
}

#[test]
fn a_list_of_many_calls() {
    let (p, q) = (pool_p(), pool_q());
    let mut client = Client::new(100, 80);
    assert_eq!(client.activate(9), number(21));
    assert_eq!(client.transfer(&q), number(21));
    assert_eq!(client.deactivate(), number(25));
    for (size, expected) in [(0, 20), (65_536, 20), (65_535, 26), (81, 26), (71, 0)] {
        assert_eq!(client.offer(size), number(expected));
    }
    assert_eq!(client.transfer(&[]), number(22));
    assert_eq!(client.transfer(&q[..70]), DONE);
    assert_eq!(client.transfer(&q[69..]), number(22));
    assert_eq!(client.activate(4), number(23));
    assert_eq!(client.transfer(&q[70..]), DONE);
    assert_eq!(client.activate(3), refusal(7, 4));
    assert_eq!(client.fields(), (true, 71, 71, 0, false));
    assert_eq!(client.activate(4), DONE);
    assert_eq!(client.fields(), (false, 0, 0, 71, true));

    // A refused offer leaves the first in force, another takes its place.
    assert_eq!(client.offer(59), DONE);
    assert_eq!(client.transfer(&q[..7]), DONE);
    assert_eq!(client.offer(81), number(26));
    assert_eq!(client.fields(), (true, 59, 7, 71, true));
    assert_eq!(client.offer(59), DONE);
    assert_eq!(client.fields(), (true, 59, 0, 71, true));
    assert_eq!(client.transfer(&q[..59]), DONE);
    assert_eq!(client.activate(4), (24, 0, fault(3, 6, 2, 2, 1)));
    assert_eq!(client.fields(), (false, 0, 0, 71, true));
    assert_eq!(client.kept[..71], q);

    // The kept pool survives the calls in between, and is replaced by P.
    assert_eq!(client.deactivate(), DONE);
    assert_eq!(client.activate(0), DONE);
    assert_eq!(client.activate(0), DONE);
    assert_eq!(client.offer(70), DONE);
    assert_eq!(client.transfer(&q[..70]), DONE);
    assert_eq!(client.activate(0), refusal(4, 59));
    assert_eq!(client.offer(44), DONE);
    assert_eq!(client.lost(), DONE);
    assert_eq!(client.fields(), (false, 0, 0, 71, false));
    assert_eq!(client.offer(44), DONE);
    for byte in &p {
        assert_eq!(client.transfer(&[*byte]), DONE);
    }
    assert_eq!(client.activate(2), DONE);
    assert_eq!(client.fields(), (false, 0, 0, 44, true));
    assert_eq!(client.kept[44..71], q[44..]);
    assert_eq!(client.kept[71..], [0x5A; 9]);
    assert_eq!(client.offer(80), DONE);
    assert_eq!(client.delete(), DONE);
    assert_eq!(client.session, Session::new());
    assert_eq!(client.activate(2), number(21));
    assert_eq!(client.lost(), DONE);
    assert_eq!(client.staging[44..71], q[44..]);
    assert_eq!(client.staging[71..], [0xA5; 29]);
}

/// The first fault names its object: record 0, a device, an element with a
/// parent that names nothing, process data with a bad ID.
#[test]
fn a_faulty_pool_is_24_with_five_numbers() {
    let device = Dvc {
        texts: [b"\xFF", b"", b""],
        ..Dvc::default()
    };
    let element = Det {
        id: 2,
        designator: b"tank",
        number: 1,
        parent: 9,
        entries: &[8],
        ..Det::default()
    };
    let data = Dpd {
        id: 65_535,
        ..Dpd::default()
    };
    let mut parent_1 = pool_p();
    parent_1[40] = 1;
    for (pool, first) in [
        (pool_p()[..31].to_vec(), fault(0, 11, 1, 65_535, 65_535)),
        (pool(&[&data]), fault(0, 10, 1, 65_535, 65_535)),
        (pool(&[&device, &Det::root()]), fault(1, 4, 1, 0, 65_535)),
        (pool_q()[..59].to_vec(), fault(3, 6, 2, 2, 1)),
        (parent_1, fault(2, 9, 1, 1, 1)),
        (after_device(&[&element, &data]), fault(3, 6, 1, 2, 9)),
        (
            after_device(&[&data, &element]),
            fault(3, 1, 1, 65_535, 65_535),
        ),
    ] {
        let mut client = Client::new(pool.len(), pool.len());
        assert_eq!(client.offer(pool.len()), DONE);
        assert_eq!(client.transfer(&pool), DONE);
        assert_eq!(client.activate(4), (24, 0, first));
        assert_eq!(client.session, Session::new());
    }
}

#[test]
fn reading_refuses_and_ends_the_stage_save_for_a_short_table() {
    let behind_p = |tail: &[u8]| [&pool_p()[..], tail].concat();
    for (pool, expected) in [
        (behind_p(b"XXX"), refusal(3, 44)),
        (behind_p(b"D"), refusal(4, 44)),
        (behind_p(b"DVC\0\0\x81"), refusal(5, 49)),
        (pool_q(), refusal(7, 4)),
    ] {
        let mut client = Client::new(pool.len(), pool.len());
        assert_eq!(client.offer(pool.len()), DONE);
        assert_eq!(client.transfer(&pool), DONE);
        let before = client.session;
        assert_eq!(client.activate(3), expected);
        let stays = expected.0 == 7;
        assert_eq!(client.session, if stays { before } else { Session::new() });
        assert_eq!(client.kept, vec![0x5A; pool.len()]);
    }
}
