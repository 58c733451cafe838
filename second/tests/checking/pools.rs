//! Builds pools record by record. Fields that a test does not set are sound.

use second::{check, Fault, Record};

pub trait Bytes {
    fn bytes(&self) -> Vec<u8>;
}

pub struct Dvc<'a> {
    pub id: u16,
    /// Designator, software version and serial number.
    pub texts: [&'a [u8]; 3],
    pub structure: [u8; 7],
    pub localization: [u8; 7],
    pub extended: &'a [u8],
}

impl Default for Dvc<'_> {
    fn default() -> Self {
        Dvc {
            id: 0,
            texts: [b""; 3],
            structure: [1; 7],
            localization: *b"en\0\0\0\0\xFF",
            extended: b"",
        }
    }
}

impl Bytes for Dvc<'_> {
    fn bytes(&self) -> Vec<u8> {
        let mut bytes = start(b"DVC", self.id);
        push_text(&mut bytes, self.texts[0]);
        push_text(&mut bytes, self.texts[1]);
        bytes.extend([0; 8]);
        push_text(&mut bytes, self.texts[2]);
        bytes.extend(self.structure);
        bytes.extend(self.localization);
        push_text(&mut bytes, self.extended);
        bytes
    }
}

pub struct Det<'a> {
    pub id: u16,
    pub element_type: u8,
    pub designator: &'a [u8],
    pub number: u16,
    pub parent: u16,
    pub entries: &'a [u16],
}

impl Det<'_> {
    /// A device element of type device (1), which every pool needs.
    pub fn root() -> Self {
        Det {
            element_type: 1,
            ..Det::default()
        }
    }
}

/// A function (type 2). Next to the root it needs an ID and number of its own.
impl Default for Det<'_> {
    fn default() -> Self {
        Det {
            id: 1,
            element_type: 2,
            designator: b"",
            number: 0,
            parent: 0,
            entries: &[],
        }
    }
}

impl Bytes for Det<'_> {
    fn bytes(&self) -> Vec<u8> {
        let mut bytes = start(b"DET", self.id);
        bytes.push(self.element_type);
        push_text(&mut bytes, self.designator);
        bytes.extend(self.number.to_le_bytes());
        bytes.extend(self.parent.to_le_bytes());
        bytes.extend((self.entries.len() as u16).to_le_bytes());
        bytes.extend(self.entries.iter().flat_map(|entry| entry.to_le_bytes()));
        bytes
    }
}

pub struct Dpd<'a> {
    pub id: u16,
    pub ddi: u16,
    pub properties: u8,
    pub triggers: u8,
    pub designator: &'a [u8],
    pub presentation: u16,
}

impl Default for Dpd<'_> {
    fn default() -> Self {
        Dpd {
            id: 20,
            ddi: 141,
            properties: 0,
            triggers: 0,
            designator: b"",
            presentation: 65_535,
        }
    }
}

impl Bytes for Dpd<'_> {
    fn bytes(&self) -> Vec<u8> {
        let mut bytes = start(b"DPD", self.id);
        bytes.extend(self.ddi.to_le_bytes());
        bytes.extend([self.properties, self.triggers]);
        push_text(&mut bytes, self.designator);
        bytes.extend(self.presentation.to_le_bytes());
        bytes
    }
}

pub struct Dpt<'a> {
    pub id: u16,
    pub ddi: u16,
    pub designator: &'a [u8],
    pub presentation: u16,
}

impl Default for Dpt<'_> {
    fn default() -> Self {
        Dpt {
            id: 30,
            ddi: 134,
            designator: b"",
            presentation: 65_535,
        }
    }
}

impl Bytes for Dpt<'_> {
    fn bytes(&self) -> Vec<u8> {
        let mut bytes = start(b"DPT", self.id);
        bytes.extend(self.ddi.to_le_bytes());
        bytes.extend((-1_i32).to_le_bytes());
        push_text(&mut bytes, self.designator);
        bytes.extend(self.presentation.to_le_bytes());
        bytes
    }
}

pub struct Dvp<'a> {
    pub id: u16,
    pub scale_bits: u32,
    pub decimals: u8,
    pub unit: &'a [u8],
}

impl Default for Dvp<'_> {
    fn default() -> Self {
        Dvp {
            id: 40,
            scale_bits: 1.0_f32.to_bits(),
            decimals: 0,
            unit: b"",
        }
    }
}

impl Bytes for Dvp<'_> {
    fn bytes(&self) -> Vec<u8> {
        let mut bytes = start(b"DVP", self.id);
        bytes.extend((-1_i32).to_le_bytes());
        bytes.extend(self.scale_bits.to_le_bytes());
        bytes.push(self.decimals);
        push_text(&mut bytes, self.unit);
        bytes
    }
}

fn start(mark: &[u8; 3], id: u16) -> Vec<u8> {
    [&mark[..], &id.to_le_bytes()].concat()
}

fn push_text(bytes: &mut Vec<u8>, text: &[u8]) {
    bytes.push(text.len() as u8);
    bytes.extend(text);
}

pub fn pool(records: &[&dyn Bytes]) -> Vec<u8> {
    records.iter().flat_map(|record| record.bytes()).collect()
}

/// A device, a device element of type 1 and these records as number 3 onward.
pub fn after_device(records: &[&dyn Bytes]) -> Vec<u8> {
    [pool_p(), pool(records)].concat()
}

/// Pool P of the worked lines.
pub fn pool_p() -> Vec<u8> {
    pool(&[&Dvc::default(), &Det::root()])
}

/// Pool Q of the worked lines.
pub fn pool_q() -> Vec<u8> {
    let mut pool = pool_p();
    pool.extend(*b"DET\x02\0\x04\0\x01\0\x01\0\x01\0\x03\0");
    pool.extend(*b"DPD\x03\0\x8D\0\x01\x09\0\xFF\xFF");
    pool
}

/// A sound pool with records of all kinds, texts and references.
pub fn pool_of_all_kinds() -> Vec<u8> {
    let device = Dvc {
        texts: [b"Spr\xC3\xBChger", b"1.0", b"47"],
        extended: b"\xFF\x00",
        ..Dvc::default()
    };
    let machine = Det {
        designator: b"all",
        entries: &[20, 30],
        ..Det::root()
    };
    let tank = Det {
        id: 2,
        element_type: 3,
        number: 1,
        parent: 1,
        entries: &[30, 20],
        ..Det::default()
    };
    let data = Dpd {
        properties: 1,
        triggers: 9,
        designator: b"on",
        presentation: 40,
        ..Dpd::default()
    };
    let property = Dpt {
        designator: b"x",
        presentation: 40,
        ..Dpt::default()
    };
    let presentation = Dvp {
        decimals: 2,
        unit: b"m\xC2\xB2",
        ..Dvp::default()
    };
    pool(&[&device, &machine, &tank, &data, &property, &presentation])
}

/// A table with an entry for each record the pool can have.
pub fn table_for(pool: &[u8]) -> Vec<Record> {
    let shortest_record = 12;
    vec![Record::default(); pool.len() / shortest_record]
}

/// All faults of a pool that is read.
pub fn all_faults(pool: &[u8]) -> Vec<Fault> {
    let mut table = table_for(pool);
    let count = check(pool, &mut table, &mut []).expect("the pool is read");
    let mut buffer = vec![Fault::default(); count];
    assert_eq!(check(pool, &mut table, &mut buffer), Ok(count));
    buffer
}

/// A fault by its five numbers.
pub const fn fault(record: u16, rule: u8, item: u16, id: u16, parent: u16) -> Fault {
    Fault {
        record,
        rule,
        item,
        id,
        parent,
    }
}

/// All faults of a pool that is read, as record, rule and item.
pub fn faults(pool: &[u8]) -> Vec<(u16, u8, u16)> {
    all_faults(pool)
        .iter()
        .map(|fault| (fault.record, fault.rule, fault.item))
        .collect()
}

/// The faults of records after a device and a device element.
pub fn faults_after_device(records: &[&dyn Bytes]) -> Vec<(u16, u8, u16)> {
    faults(&after_device(records))
}
