//! The rule table taken word for word, without regard to speed: every rule
//! searches the pool anew. It reads the pool's fields on its own, and from
//! these it has the working table too.

use second::{Fault, Kind, Record};

const NO_REFERENCE: u16 = 65_535;

struct Item<'a> {
    start: usize,
    length: usize,
    mark: &'a [u8],
    id: u16,
    texts: Vec<&'a [u8]>,
    structure: &'a [u8],
    localization: &'a [u8],
    element_type: u8,
    number: u16,
    parent: u16,
    entries: Vec<u16>,
    ddi: u16,
    properties: u8,
    triggers: u8,
    presentation: u16,
    scale_bits: u32,
    decimals: u8,
}

/// All breaches of a pool that divides into records.
pub fn breaches(pool: &[u8]) -> Vec<Fault> {
    let items = items(pool);
    let mut breaches = Vec::new();
    let mut report = |record: usize, rule, item: usize| {
        let (id, parent) = match record {
            0 => (65_535, 65_535),
            _ => (items[record - 1].id, items[record - 1].parent),
        };
        breaches.push(Fault {
            record: record as u16,
            rule,
            item: item as u16,
            id,
            parent,
        });
    };
    if !items.iter().any(|item| item.mark == b"DVC") {
        report(0, 10, 1);
    }
    if !items
        .iter()
        .any(|item| item.mark == b"DET" && item.element_type == 1)
    {
        report(0, 11, 1);
    }
    for at in 0..items.len() {
        for (rule, item) in breaches_of_record(&items, at) {
            report(at + 1, rule, item);
        }
    }
    breaches.sort_by_key(|fault| (fault.record, fault.rule, fault.item));
    breaches
}

/// The entries of the working table for a pool that divides into records.
pub fn entries(pool: &[u8]) -> Vec<Record> {
    let entry = |item: &Item| Record {
        start: item.start as u16,
        length: item.length as u16,
        kind: match item.mark {
            b"DVC" => Kind::Dvc,
            b"DET" => Kind::Det,
            b"DPD" => Kind::Dpd,
            b"DPT" => Kind::Dpt,
            _ => Kind::Dvp,
        },
        id: item.id,
        parent: item.parent,
    };
    items(pool).iter().map(entry).collect()
}

fn breaches_of_record(items: &[Item], at: usize) -> Vec<(u8, usize)> {
    let (item, earlier) = (&items[at], &items[..at]);
    let mut found = Vec::new();
    let unfit_id = match item.mark {
        b"DVC" => item.id != 0,
        _ => item.id == 0 || item.id == 65_535,
    };
    let single = [
        (1, unfit_id),
        (2, earlier.iter().any(|other| other.id == item.id)),
        (
            3,
            item.mark == b"DVC" && earlier.iter().any(|other| other.mark == b"DVC"),
        ),
        (8, item.mark == b"DET" && has_number(earlier, item.number)),
        (9, item.mark == b"DET" && never_ends(items, at)),
    ];
    found.extend(single.iter().filter(|it| it.1).map(|it| (it.0, 1)));
    for (place, text) in item.texts.iter().enumerate() {
        if !is_sound_text(text) {
            found.push((4, place + 1));
        }
    }
    found.extend(out_of_range(item).into_iter().map(|place| (5, place)));
    found.extend(bad_references(items, item));
    found.extend(
        repeated_ddis(items, item)
            .into_iter()
            .map(|place| (12, place)),
    );
    found
}

fn has_number(items: &[Item], number: u16) -> bool {
    items
        .iter()
        .any(|item| item.mark == b"DET" && item.number == number)
}

fn named<'a>(items: &'a [Item<'a>], id: u16) -> Option<&'a Item<'a>> {
    if id == NO_REFERENCE {
        return None;
    }
    items.iter().find(|item| item.id == id)
}

/// A chain that has taken as many steps as there are records has met one of
/// them twice.
fn never_ends(items: &[Item], at: usize) -> bool {
    let mut element = &items[at];
    for _ in 0..=items.len() {
        match named(items, element.parent) {
            Some(parent) if parent.mark == b"DET" => element = parent,
            _ => return false,
        }
    }
    true
}

fn out_of_range(item: &Item) -> Vec<usize> {
    let mut found = Vec::new();
    let mut judge = |place, breached| {
        if breached {
            found.push(place);
        }
    };
    match item.mark {
        b"DVC" => {
            for at in 0..7 {
                judge(at + 1, item.structure[at] == 255);
                judge(at + 8, (item.localization[at] == 255) != (at == 6));
            }
        }
        b"DET" => {
            judge(1, item.element_type < 1 || item.element_type > 7);
            judge(2, item.number > 4_095);
        }
        b"DPD" => {
            judge(1, item.properties >> 3 != 0);
            judge(
                2,
                item.properties >> 1 & 1 == 1 && item.properties >> 2 & 1 == 1,
            );
            judge(3, item.triggers >> 5 != 0);
        }
        b"DVP" => {
            judge(
                1,
                item.scale_bits < 0x322B_CC77 || item.scale_bits > 0x4CBE_BC20,
            );
            judge(2, item.decimals > 7);
        }
        _ => {}
    }
    found
}

fn bad_references(items: &[Item], item: &Item) -> Vec<(u8, usize)> {
    let mut references: Vec<(usize, u16, [&[u8]; 2])> = Vec::new();
    match item.mark {
        b"DET" => {
            references.push((1, item.parent, [b"DVC", b"DET"]));
            for (place, &entry) in item.entries.iter().enumerate() {
                references.push((place + 2, entry, [b"DPD", b"DPT"]));
            }
        }
        b"DPD" | b"DPT" if item.presentation != NO_REFERENCE => {
            references.push((1, item.presentation, [b"DVP", b"DVP"]));
        }
        _ => {}
    }
    let breach = |(place, id, marks): (usize, u16, [&[u8]; 2])| match named(items, id) {
        None => Some((6, place)),
        Some(target) if !marks.contains(&target.mark) => Some((7, place)),
        Some(_) => None,
    };
    references.into_iter().filter_map(breach).collect()
}

fn repeated_ddis(items: &[Item], item: &Item) -> Vec<usize> {
    let ddi = |entry: u16| {
        named(items, entry)
            .filter(|target| target.mark == b"DPD" || target.mark == b"DPT")
            .map(|target| target.ddi)
    };
    let is_repeated = |&place: &usize| {
        let earlier = &item.entries[..place];
        ddi(item.entries[place]).is_some_and(|it| earlier.iter().any(|&at| ddi(at) == Some(it)))
    };
    let places = (0..item.entries.len()).filter(is_repeated);
    places.map(|place| place + 2).collect()
}

pub fn is_sound_text(text: &[u8]) -> bool {
    let marked = text.len() >= 3 && text[..3] == [0xEF, 0xBB, 0xBF];
    !marked && characters(text).is_some_and(|count| count <= 32)
}

/// The characters of a text, counted by the grammar of RFC 3629.
fn characters(mut text: &[u8]) -> Option<usize> {
    let mut count = 0;
    while !text.is_empty() {
        let length = match *text {
            [0x00..=0x7F, ..] => 1,
            [0xC2..=0xDF, 0x80..=0xBF, ..] => 2,
            [0xE0, 0xA0..=0xBF, 0x80..=0xBF, ..] => 3,
            [0xE1..=0xEC | 0xEE | 0xEF, 0x80..=0xBF, 0x80..=0xBF, ..] => 3,
            [0xED, 0x80..=0x9F, 0x80..=0xBF, ..] => 3,
            [0xF0, 0x90..=0xBF, 0x80..=0xBF, 0x80..=0xBF, ..] => 4,
            [0xF1..=0xF3, 0x80..=0xBF, 0x80..=0xBF, 0x80..=0xBF, ..] => 4,
            [0xF4, 0x80..=0x8F, 0x80..=0xBF, 0x80..=0xBF, ..] => 4,
            _ => return None,
        };
        text = &text[length..];
        count += 1;
    }
    Some(count)
}

fn items(pool: &[u8]) -> Vec<Item<'_>> {
    let mut cursor = Cursor { rest: pool };
    let mut items = Vec::new();
    while !cursor.rest.is_empty() {
        let start = pool.len() - cursor.rest.len();
        let mut item = cursor.item();
        item.start = start;
        item.length = pool.len() - cursor.rest.len() - start;
        items.push(item);
    }
    items
}

struct Cursor<'a> {
    rest: &'a [u8],
}

impl<'a> Cursor<'a> {
    fn take(&mut self, length: usize) -> &'a [u8] {
        let (taken, rest) = self.rest.split_at(length);
        self.rest = rest;
        taken
    }

    fn byte(&mut self) -> u8 {
        self.take(1)[0]
    }

    fn number(&mut self) -> u16 {
        u16::from(self.byte()) + 256 * u16::from(self.byte())
    }

    fn text(&mut self) -> &'a [u8] {
        let length = self.byte();
        self.take(length.into())
    }

    fn item(&mut self) -> Item<'a> {
        let mut item = Item {
            start: 0,
            length: 0,
            mark: self.take(3),
            id: self.number(),
            texts: Vec::new(),
            structure: &[],
            localization: &[],
            element_type: 0,
            number: 0,
            parent: 65_535,
            entries: Vec::new(),
            ddi: 0,
            properties: 0,
            triggers: 0,
            presentation: NO_REFERENCE,
            scale_bits: 0,
            decimals: 0,
        };
        match item.mark {
            b"DVC" => self.device(&mut item),
            b"DET" => self.element(&mut item),
            b"DPD" => self.process_data(&mut item),
            b"DPT" => self.property(&mut item),
            b"DVP" => self.presentation(&mut item),
            mark => panic!("{mark:?} is no mark"),
        }
        item
    }

    fn device(&mut self, item: &mut Item<'a>) {
        item.texts.push(self.text());
        item.texts.push(self.text());
        self.take(8);
        item.texts.push(self.text());
        item.structure = self.take(7);
        item.localization = self.take(7);
        self.text();
    }

    fn element(&mut self, item: &mut Item<'a>) {
        item.element_type = self.byte();
        item.texts.push(self.text());
        item.number = self.number();
        item.parent = self.number();
        for _ in 0..self.number() {
            item.entries.push(self.number());
        }
    }

    fn process_data(&mut self, item: &mut Item<'a>) {
        item.ddi = self.number();
        item.properties = self.byte();
        item.triggers = self.byte();
        item.texts.push(self.text());
        item.presentation = self.number();
    }

    fn property(&mut self, item: &mut Item<'a>) {
        item.ddi = self.number();
        self.take(4);
        item.texts.push(self.text());
        item.presentation = self.number();
    }

    fn presentation(&mut self, item: &mut Item<'a>) {
        self.take(4);
        item.scale_bits = u32::from(self.number()) + 65_536 * u32::from(self.number());
        item.decimals = self.byte();
        item.texts.push(self.text());
    }
}
