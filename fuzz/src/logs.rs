//! A layout, and a log record and a whole log in the same bytes.

use crate::bytes::Bytes;
use compare::logs::{layout_by_both, Reading, Whole};

/// Bytes of the arguments.
pub const ARGUMENTS: usize = 7;
/// Bytes of a record before its optional fields, and of these by their marks.
const TIME_AND_DAYS: usize = 6;
const WIDTHS: [usize; 9] = [4, 4, 4, 1, 2, 2, 1, 4, 2];

pub fn compare(bytes: &mut Bytes) -> Result<(), String> {
    let wide = bytes.wide();
    let layout = wide.number(0, bytes.word(), 16);
    let logged = header_count(bytes.word());
    let more = [bytes.more(), bytes.more()];
    let bytes = bytes.rest();
    layout_by_both(layout)?;
    let count = bytes.get(count_at(layout)).map_or(0, |&it| it.into());
    let reading = Reading {
        bytes,
        layout,
        logged,
        lists: more.map(|more| usize::saturating_add_signed(count, more)),
    };
    let whole = Whole {
        bytes,
        layout,
        logged,
    };
    let what = || format!("layout {layout:#05X}, {logged} log values");
    reading
        .by_both()
        .map_err(|it| format!("{}, {:?}: {it}", what(), reading.lists))?;
    whole
        .by_both()
        .map_err(|it| format!("{}, log: {it}", what()))?;
    Ok(())
}

/// The header's count may be any number.
pub fn header_count(word: u16) -> usize {
    match word {
        u16::MAX => usize::MAX,
        0xFFFE => 1 << 32,
        _ => word.into(),
    }
}

/// Where a record's count is under a layout.
pub fn count_at(layout: u32) -> usize {
    let marked = |bit: &usize| layout >> bit & 1 == 1;
    let widths = (0..WIDTHS.len()).filter(marked).map(|bit| WIDTHS[bit]);
    TIME_AND_DAYS + widths.sum::<usize>()
}
