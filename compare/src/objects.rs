//! Records with all their fields, and how they are written into a pool.

use second::Kind;

/// The ID that as a reference names nothing.
pub const NO_REFERENCE: u16 = 65_535;
/// The least and the greatest scale in range, as bits.
pub const LEAST_SCALE: u32 = 0x322B_CC77;
pub const GREATEST_SCALE: u32 = 0x4CBE_BC20;
pub const MOST_CHARACTERS: usize = 32;
pub const GREATEST_NUMBER: u16 = 4_095;

/// Types of device elements. The one of type device, the root element, stands
/// for the whole device; no pool is sound without it.
pub const DEVICE_TYPE: u8 = 1;
pub const FUNCTION_TYPE: u8 = 2;
pub const SECTION_TYPE: u8 = 4;

/// A record. Fields that its kind does not have are not written.
#[derive(Clone)]
pub struct Object {
    pub kind: Kind,
    pub id: u16,
    /// Designator or unit text, and a device's software version and serial
    /// number.
    pub texts: [Vec<u8>; 3],
    pub name: [u8; 8],
    pub structure: [u8; 7],
    pub localization: [u8; 7],
    pub extended: Vec<u8>,
    pub element_type: u8,
    pub number: u16,
    pub parent: u16,
    pub entries: Vec<u16>,
    pub ddi: u16,
    pub properties: u8,
    pub triggers: u8,
    pub value: i32,
    pub presentation: u16,
    pub offset: i32,
    pub scale_bits: u32,
    pub decimals: u8,
}

impl Object {
    /// A record without texts, entries and references, except that a device
    /// element's parent is the device. A device element is a function.
    pub fn plain(kind: Kind, id: u16) -> Self {
        Object {
            kind,
            id,
            texts: [Vec::new(), Vec::new(), Vec::new()],
            name: [0; 8],
            structure: [1; 7],
            localization: *b"en\0\0\0\0\xFF",
            extended: Vec::new(),
            element_type: FUNCTION_TYPE,
            number: 0,
            parent: 0,
            entries: Vec::new(),
            ddi: 0,
            properties: 0,
            triggers: 0,
            value: 0,
            presentation: NO_REFERENCE,
            offset: 0,
            scale_bits: 1.0_f32.to_bits(),
            decimals: 0,
        }
    }

    /// A plain device element, except that it is of type device.
    pub fn root_element(id: u16) -> Self {
        Object {
            element_type: DEVICE_TYPE,
            ..Object::plain(Kind::Det, id)
        }
    }

    /// Whether it is a device element of type device.
    pub fn is_root_element(&self) -> bool {
        self.kind == Kind::Det && self.element_type == DEVICE_TYPE
    }

    /// The parent ID that its table entry has.
    pub fn entry_parent(&self) -> u16 {
        match self.kind {
            Kind::Det => self.parent,
            _ => NO_REFERENCE,
        }
    }

    /// Whether a list may name it.
    pub fn is_data(&self) -> bool {
        matches!(self.kind, Kind::Dpd | Kind::Dpt)
    }

    pub fn text_count(&self) -> usize {
        match self.kind {
            Kind::Dvc => 3,
            _ => 1,
        }
    }

    pub fn write(&self, pool: &mut Vec<u8>) {
        pool.extend(self.kind.mark().bytes());
        pool.extend(self.id.to_le_bytes());
        match self.kind {
            Kind::Dvc => self.write_device(pool),
            Kind::Det => self.write_element(pool),
            Kind::Dpd => self.write_process_data(pool),
            Kind::Dpt => self.write_property(pool),
            Kind::Dvp => self.write_presentation(pool),
        }
    }

    fn write_device(&self, pool: &mut Vec<u8>) {
        write_text(pool, &self.texts[0]);
        write_text(pool, &self.texts[1]);
        pool.extend(self.name);
        write_text(pool, &self.texts[2]);
        pool.extend(self.structure);
        pool.extend(self.localization);
        write_text(pool, &self.extended);
    }

    fn write_element(&self, pool: &mut Vec<u8>) {
        pool.push(self.element_type);
        write_text(pool, &self.texts[0]);
        pool.extend(self.number.to_le_bytes());
        pool.extend(self.parent.to_le_bytes());
        pool.extend((self.entries.len() as u16).to_le_bytes());
        pool.extend(self.entries.iter().flat_map(|entry| entry.to_le_bytes()));
    }

    fn write_process_data(&self, pool: &mut Vec<u8>) {
        pool.extend(self.ddi.to_le_bytes());
        pool.extend([self.properties, self.triggers]);
        write_text(pool, &self.texts[0]);
        pool.extend(self.presentation.to_le_bytes());
    }

    fn write_property(&self, pool: &mut Vec<u8>) {
        pool.extend(self.ddi.to_le_bytes());
        pool.extend(self.value.to_le_bytes());
        write_text(pool, &self.texts[0]);
        pool.extend(self.presentation.to_le_bytes());
    }

    fn write_presentation(&self, pool: &mut Vec<u8>) {
        pool.extend(self.offset.to_le_bytes());
        pool.extend(self.scale_bits.to_le_bytes());
        pool.push(self.decimals);
        write_text(pool, &self.texts[0]);
    }
}

fn write_text(pool: &mut Vec<u8>, text: &[u8]) {
    pool.push(text.len() as u8);
    pool.extend(text);
}

/// The pool of these records.
pub fn pool_of(objects: &[Object]) -> Vec<u8> {
    let mut pool = Vec::new();
    for object in objects {
        object.write(&mut pool);
    }
    pool
}

/// The index of the record that a reference names.
pub fn named(objects: &[Object], id: u16) -> Option<usize> {
    if id == NO_REFERENCE {
        return None;
    }
    objects.iter().position(|object| object.id == id)
}
