//! The fast checker against the literal one.

use crate::literal;
use crate::pools::{all_faults, pool_of_all_kinds, pool_q, table_for, Bytes};
use crate::pools::{Det, Dpd, Dpt, Dvc, Dvp};
use second::{check, read_pool, Fault, Kind};

const SEED: u64 = 11783;
const SMALL_POOLS: usize = 20_000;
const MIDDLE_POOLS: usize = 100;

/// SplitMix64.
pub struct Random {
    pub state: u64,
}

impl Random {
    pub fn draw(&mut self) -> u64 {
        self.state = self.state.wrapping_add(0x9E37_79B9_7F4A_7C15);
        let mut z = self.state;
        z = (z ^ (z >> 30)).wrapping_mul(0xBF58_476D_1CE4_E5B9);
        z = (z ^ (z >> 27)).wrapping_mul(0x94D0_49BB_1331_11EB);
        z ^ (z >> 31)
    }

    pub fn below(&mut self, bound: usize) -> usize {
        (self.draw() % bound as u64) as usize
    }

    pub fn one_in(&mut self, count: usize) -> bool {
        self.below(count) == 0
    }

    pub fn pick<T: Copy>(&mut self, values: &[T]) -> T {
        values[self.below(values.len())]
    }
}

/// Draws records whose numbers collide often.
struct Maker {
    random: Random,
    /// IDs are mostly below this bound.
    ids: usize,
    most_entries: usize,
}

const TEXTS: [&[u8]; 12] = [
    b"",
    b"a",
    b"tank",
    b"\xC3\xBC",
    b"\xEF\xBB\xBF",
    b"a\xEF\xBB\xBF",
    b"\xC0\x80",
    b"\xED\xA0\x80",
    b"\xFF",
    &[b'a'; 32],
    &[b'a'; 33],
    b"\xF4\x8F\xBF\xBF",
];

impl Maker {
    fn id(&mut self) -> u16 {
        match self.random.below(20) {
            0 => 65_535,
            1 => self.random.pick(&[0, 256, 65_534]),
            _ => self.random.below(self.ids) as u16,
        }
    }

    fn text(&mut self) -> &'static [u8] {
        let sound = &TEXTS[..4];
        if self.random.one_in(6) {
            self.random.pick(&TEXTS)
        } else {
            self.random.pick(sound)
        }
    }

    /// One of the usual values, sometimes one of the others.
    fn mostly<T: Copy>(&mut self, usual: &[T], others: &[T]) -> T {
        let rare = self.random.one_in(8);
        self.random.pick(if rare { others } else { usual })
    }

    fn device(&mut self) -> Vec<u8> {
        let mut device = Dvc {
            id: if self.random.one_in(4) { self.id() } else { 0 },
            texts: [self.text(), self.text(), self.text()],
            extended: self.random.pick(&TEXTS[..10]),
            ..Dvc::default()
        };
        let at = self.random.below(7);
        device.structure[at] = self.random.pick(&[0, 1, 254, 255]);
        let at = self.random.below(7);
        device.localization[at] = self.mostly(&[device.localization[at]], &[0, 254, 255]);
        device.bytes()
    }

    fn element(&mut self) -> Vec<u8> {
        let count = self.random.below(self.most_entries + 1);
        let entries: Vec<u16> = (0..count).map(|_| self.id()).collect();
        let few = self.random.below(self.ids) as u16;
        let element = Det {
            id: self.id(),
            element_type: self.mostly(&[1, 2, 7], &[0, 1, 7, 8, 255]),
            designator: self.text(),
            number: self.mostly(&[few], &[0, 1, 4_095, 4_096, 65_535]),
            parent: self.id(),
            entries: &entries,
        };
        element.bytes()
    }

    fn ddi(&mut self) -> u16 {
        self.mostly(&[1, 2, 3], &[0, 256, 257, 65_535])
    }

    fn process_data(&mut self) -> Vec<u8> {
        let data = Dpd {
            id: self.id(),
            ddi: self.ddi(),
            properties: self.mostly(&[0, 1, 2, 3, 4, 5], &[6, 7, 8, 14, 128]),
            triggers: self.mostly(&[0, 31], &[32, 64, 255]),
            designator: self.text(),
            presentation: self.mostly(&[65_535], &[0, 1, 2, 3, 4]),
        };
        data.bytes()
    }

    fn property(&mut self) -> Vec<u8> {
        let property = Dpt {
            id: self.id(),
            ddi: self.ddi(),
            designator: self.text(),
            presentation: self.id(),
        };
        property.bytes()
    }

    fn presentation(&mut self) -> Vec<u8> {
        let scales = [0x322B_CC76, 0x4CBE_BC21, 0x7FC0_0000, 0xFFFF_FFFF, 0];
        let presentation = Dvp {
            id: self.id(),
            scale_bits: self.mostly(&[0x322B_CC77, 0x3F80_0000, 0x4CBE_BC20], &scales),
            decimals: self.mostly(&[0, 7], &[8, 255]),
            unit: self.text(),
        };
        presentation.bytes()
    }

    fn pool(&mut self, records: usize) -> Vec<u8> {
        let mut pool = Vec::new();
        for _ in 0..records {
            pool.extend(match self.random.below(10) {
                0 => self.device(),
                1..=4 => self.element(),
                5 | 6 => self.process_data(),
                7 | 8 => self.property(),
                _ => self.presentation(),
            });
        }
        pool
    }
}

/// Asserts that both checkers find the same faults and fill the table alike,
/// and gives the faults.
fn agreed_faults(pool: &[u8], name: &str) -> Vec<Fault> {
    let found = all_faults(pool);
    assert_eq!(found, literal::breaches(pool), "{name}");
    let mut table = table_for(pool);
    let count = read_pool(pool, &mut table).unwrap();
    assert_eq!(table[..count], literal::entries(pool), "{name}");
    found
}

#[test]
fn random_small_pools() {
    let mut breached = [0; 13];
    let (mut of_pool, mut with_parent, mut without_parent) = (0, 0, 0);
    for index in 0..SMALL_POOLS {
        let state = SEED.wrapping_add((index as u64) << 32);
        let mut random = Random { state };
        let ids = random.pick(&[2, 4, 8, 16]);
        let records = 1 + random.below(14);
        let most_entries = random.pick(&[0, 3, 8]);
        let mut maker = Maker {
            random,
            ids,
            most_entries,
        };
        let pool = maker.pool(records);
        let entries = literal::entries(&pool);
        for fault in agreed_faults(&pool, &format!("small pool {index}")) {
            breached[usize::from(fault.rule)] += 1;
            match usize::from(fault.record).checked_sub(1) {
                None => of_pool += 1,
                Some(at) if entries[at].kind == Kind::Det => with_parent += 1,
                Some(_) => without_parent += 1,
            }
        }
    }
    // Pools that seldom breach a rule would not test it.
    assert!(breached[1..].iter().all(|&count| count > 1_000));
    let by_object = [of_pool, with_parent, without_parent];
    assert!(by_object.iter().all(|&count| count > 1_000));
}

#[test]
fn random_middle_pools() {
    for index in 0..MIDDLE_POOLS {
        let state = SEED.wrapping_mul(3).wrapping_add((index as u64) << 32);
        let mut random = Random { state };
        let ids = random.pick(&[30, 100, 300, 60_000]);
        let records = 50 + random.below(150);
        let mut maker = Maker {
            random,
            ids,
            most_entries: 12,
        };
        agreed_faults(&maker.pool(records), &format!("middle pool {index}"));
    }
}

/// Each byte of some small pools changed to each value. Where the pool is not
/// read, checking refuses as reading does.
#[test]
fn single_bytes_changed() {
    for sound in [pool_q(), pool_of_all_kinds()] {
        for at in 0..sound.len() {
            for value in 0..=255 {
                let mut pool = sound.clone();
                pool[at] = value;
                if let Err(refusal) = read_pool(&pool, &mut table_for(&pool)) {
                    let mut table = table_for(&pool);
                    assert_eq!(check(&pool, &mut table, &mut []), Err(refusal));
                    assert_eq!(table, table_for(&pool));
                } else {
                    agreed_faults(&pool, &format!("{value} at {at}"));
                }
            }
        }
    }
}
