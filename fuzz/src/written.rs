//! A log record that is written and, if it is, read back.

use crate::bytes::Bytes;
use crate::logs::header_count;
use compare::logs::{Draft, Reading, Writing};
use second::LogFields;

/// More than a record can have.
const MOST_PAIRS: usize = 300;

pub fn compare(bytes: &mut Bytes) -> Result<(), String> {
    let wide = bytes.wide();
    let layout = wide.number(0, bytes.word(), 16);
    let logged = header_count(bytes.word());
    let more = [bytes.more(), bytes.more(), bytes.more(), bytes.more()];
    let [room, count, ordinals, values] = more;
    let mut draft = Draft {
        layout,
        logged,
        fields: fields(bytes),
        ordinals: Vec::new(),
        values: Vec::new(),
    };
    while !bytes.is_empty() && draft.count() < MOST_PAIRS {
        draft.ordinals.push(bytes.byte());
        draft.values.push(bytes.signed());
    }
    let Writing {
        count: pairs,
        room: needed,
        ..
    } = Writing::of(&draft);
    draft
        .ordinals
        .resize(pairs.saturating_add_signed(ordinals), 255);
    draft.values.resize(pairs.saturating_add_signed(values), -1);
    let writing = Writing {
        draft: &draft,
        count: pairs.saturating_add_signed(count),
        room: needed.saturating_add_signed(room),
    };
    let what = |it: String| {
        format!(
            "count {}, room {}, {draft:?}: {it}",
            writing.count, writing.room
        )
    };
    let (written, bytes) = writing.by_both().map_err(what)?;
    if written.number == 0 {
        let reading = Reading {
            bytes: &bytes,
            layout,
            logged,
            lists: [writing.count; 2],
        };
        reading.by_both().map_err(what)?;
    }
    Ok(())
}

fn fields(bytes: &mut Bytes) -> LogFields {
    LogFields {
        time: bytes.number(),
        days: bytes.word(),
        north: bytes.signed(),
        east: bytes.signed(),
        up: bytes.signed(),
        status: bytes.byte(),
        pdop: bytes.word(),
        hdop: bytes.word(),
        satellites: bytes.byte(),
        gps_time: bytes.number(),
        gps_date: bytes.word(),
    }
}
