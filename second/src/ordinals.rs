//! The ordinals of logged values, and whether they are below the number of log
//! values in a header.

/// Bytes of an ordinal and its value.
pub const ENTRY_BYTES: usize = 5;

/// How many entries are looked at together.
const LANES: usize = 16;

/// For every byte of a window, whether to look at it.
type Mask = [[u8; LANES]; ENTRY_BYTES];

/// Whether all ordinals in a list are below `logged`.
#[inline]
pub fn ordinals_fit(ordinals: &[u8], logged: usize) -> bool {
    match largest_below(logged) {
        Some(largest) => all_up_to(largest, ordinals),
        None => ordinals.is_empty(),
    }
}

/// Whether the ordinals of the first `count` entries are below `logged`. The
/// bytes must hold those entries; what comes after them may be read, but does
/// not matter.
#[inline]
pub fn entries_fit(mut bytes: &[u8], count: usize, logged: usize) -> bool {
    let Some(largest) = largest_below(logged) else {
        return count == 0;
    };
    let mut left = count;
    while let Some((window, rest)) = bytes.split_first_chunk() {
        if !all_up_to(largest, &ordinals_of(window, &MASKS[left.min(LANES)])) {
            return false;
        }
        if left <= LANES {
            return true;
        }
        left -= LANES;
        bytes = rest;
    }
    let (entries, _) = bytes.as_chunks::<ENTRY_BYTES>();
    entries[..left].iter().all(|entry| entry[0] <= largest)
}

/// The largest ordinal below `logged`, if there is one.
#[inline]
fn largest_below(logged: usize) -> Option<u8> {
    let largest = logged.checked_sub(1)?;
    Some(u8::try_from(largest).unwrap_or(u8::MAX))
}

/// Does not stop at the first ordinal that is too large: this way the compiler
/// compares many at once.
#[inline]
fn all_up_to(largest: u8, ordinals: &[u8]) -> bool {
    let each = ordinals.iter();
    each.fold(true, |fit, &ordinal| fit & (ordinal <= largest))
}

/// The ordinals in a window, in some order, and 0 where the mask has none.
///
/// A window has as many rows as an entry has bytes, each with one byte per
/// lane. The lengths of entries and rows have no common factor, so every lane
/// has one ordinal, and once the other bytes are masked out the rows can be
/// combined by `|`.
#[inline]
fn ordinals_of(window: &[u8; ENTRY_BYTES * LANES], mask: &Mask) -> [u8; LANES] {
    let (rows, _) = window.as_chunks::<LANES>();
    let mut ordinals = [0; LANES];
    for (row, mask) in rows.iter().zip(mask) {
        for ((ordinal, byte), bits) in ordinals.iter_mut().zip(row).zip(mask) {
            *ordinal |= byte & bits;
        }
    }
    ordinals
}

/// For each number of entries, the mask of their ordinals. It is a table
/// because branches on this number would often be mispredicted, and because
/// the compiler turns a constant mask into loads of single bytes.
static MASKS: [Mask; LANES + 1] = masks();

const fn masks() -> [Mask; LANES + 1] {
    let mut masks = [[[0; LANES]; ENTRY_BYTES]; LANES + 1];
    let mut count = 1;
    while count <= LANES {
        let last = (count - 1) * ENTRY_BYTES;
        masks[count] = masks[count - 1];
        masks[count][last / LANES][last % LANES] = 0xFF;
        count += 1;
    }
    masks
}
