//! Memory that is lent to a call, between guards that are not lent.

use std::fmt::Display;

/// Length of a guard. Under AddressSanitizer there is none: a whole block is
/// lent, and the sanitizer sees each access outside it, including reads.
const GUARD: usize = if cfg!(address_sanitizer) { 0 } else { 16 };

/// A list of words.
#[derive(Default)]
pub struct Lent {
    memory: Vec<u16>,
}

impl Lent {
    /// A list of `words` words that starts with these entries. Words that make
    /// no whole entry look like the guard after them.
    pub fn new<const ENTRY: usize>(
        entries: impl Iterator<Item = [u16; ENTRY]>,
        words: usize,
    ) -> Self {
        let length = GUARD + words + GUARD;
        let mut memory = Vec::with_capacity(length);
        memory.extend((0..GUARD).map(noise));
        memory.extend(entries.flatten());
        memory.extend((memory.len()..length).map(noise));
        Lent { memory }
    }

    /// The list without its guards.
    pub fn words(&mut self) -> &mut [u16] {
        let end = self.memory.len() - GUARD;
        &mut self.memory[GUARD..end]
    }

    /// Says where two lists of the same length differ, guards included.
    pub fn parting(&self, name: &str, other: &Lent) -> Option<String> {
        if self.memory == other.memory {
            return None;
        }
        let mut pairs = self.memory.iter().zip(&other.memory);
        let at = pairs.position(|(ours, theirs)| ours != theirs)?;
        let word = at as isize - GUARD as isize;
        let (ours, theirs) = (self.memory[at], other.memory[at]);
        Some(format!("word {word} of {name} is {ours} against {theirs}"))
    }
}

/// A pool, which no call may change.
pub struct LentPool {
    memory: Vec<u8>,
    before: Vec<u8>,
}

impl LentPool {
    pub fn new(pool: &[u8]) -> Self {
        let memory = guarded(pool);
        LentPool {
            before: memory.clone(),
            memory,
        }
    }

    /// The pool without its guards.
    pub fn bytes(&self) -> &[u8] {
        &self.memory[GUARD..self.memory.len() - GUARD]
    }

    pub fn is_changed(&self) -> bool {
        self.memory != self.before
    }
}

/// What an area is made of.
pub trait Place: Copy + PartialEq + Display {
    const NAME: &'static str;

    /// One that no call writes by chance. Neighbours differ.
    fn noise(index: usize) -> Self;
}

impl Place for u8 {
    const NAME: &'static str = "byte";

    fn noise(index: usize) -> Self {
        noise(index) as u8
    }
}

impl Place for i32 {
    const NAME: &'static str = "value";

    fn noise(index: usize) -> Self {
        i32::from(noise(2 * index)) << 16 | i32::from(noise(2 * index + 1))
    }
}

/// An area of bytes or values. Calls may change it; if they may not, it is
/// compared with one that was not lent.
pub struct LentArea<T = u8> {
    memory: Vec<T>,
}

impl<T: Place> LentArea<T> {
    pub fn new(contents: &[T]) -> Self {
        LentArea {
            memory: guarded(contents),
        }
    }

    /// The area without its guards.
    pub fn contents(&self) -> &[T] {
        &self.memory[GUARD..self.memory.len() - GUARD]
    }

    pub fn contents_mut(&mut self) -> &mut [T] {
        let end = self.memory.len() - GUARD;
        &mut self.memory[GUARD..end]
    }

    /// Says where two areas of the same length differ, guards included.
    pub fn parting(&self, name: &str, other: &LentArea<T>) -> Option<String> {
        if self.memory == other.memory {
            return None;
        }
        let mut pairs = self.memory.iter().zip(&other.memory);
        let at = pairs.position(|(ours, theirs)| ours != theirs)?;
        let (what, place) = (T::NAME, at as isize - GUARD as isize);
        let (ours, theirs) = (self.memory[at], other.memory[at]);
        Some(format!(
            "{what} {place} of {name} is {ours} against {theirs}"
        ))
    }
}

fn guarded<T: Place>(contents: &[T]) -> Vec<T> {
    let guard = untouched(GUARD);
    [&guard, contents, &guard].concat()
}

/// `length` places with contents that no call writes by chance.
pub fn untouched<T: Place>(length: usize) -> Vec<T> {
    (0..length).map(T::noise).collect()
}

/// A number that no call writes by chance. Neighbours differ.
pub fn noise(index: usize) -> u16 {
    ((index as u32).wrapping_add(1).wrapping_mul(0x9E37_79B1) >> 13) as u16
}

#[cfg(test)]
mod tests {
    use super::*;

    fn list() -> Lent {
        Lent::new([[1, 2, 3], [4, 5, 6]].into_iter(), 7)
    }

    #[test]
    fn a_list_lies_between_its_guards() {
        assert_eq!(list().words()[..6], [1, 2, 3, 4, 5, 6]);
        assert_eq!(list().words().len(), 7);
        assert_eq!(list().parting("list", &list()), None);
    }

    #[test]
    fn a_change_is_seen_wherever_it_is() {
        for at in 0..list().memory.len() {
            let mut changed = list();
            changed.memory[at] ^= 1;
            let place = at as isize - GUARD as isize;
            let seen = changed.parting("list", &list()).unwrap();
            assert!(seen.starts_with(&format!("word {place} of list is ")));
        }
    }

    #[test]
    fn a_changed_area_is_seen_wherever_it_is() {
        let area = LentArea::new(b"DVC");
        assert_eq!(area.contents(), b"DVC");
        assert_eq!(area.parting("area", &LentArea::new(b"DVC")), None);
        for at in 0..area.memory.len() {
            let mut changed = LentArea::new(b"DVC");
            changed.memory[at] ^= 1;
            let place = at as isize - GUARD as isize;
            let seen = changed.parting("area", &area).unwrap();
            assert!(seen.starts_with(&format!("byte {place} of area is ")));
        }
    }

    #[test]
    fn a_changed_value_is_seen_wherever_it_is() {
        let values = [i32::MIN, 0, -1];
        for at in 0..2 * GUARD + values.len() {
            for bit in 0..32 {
                let mut changed = LentArea::new(&values);
                assert_eq!(changed.contents_mut(), values);
                changed.memory[at] ^= 1 << bit;
                let place = at as isize - GUARD as isize;
                let seen = changed.parting("list", &LentArea::new(&values)).unwrap();
                assert!(seen.starts_with(&format!("value {place} of list is ")));
            }
        }
    }

    #[test]
    fn a_changed_pool_is_seen() {
        let mut pool = LentPool::new(b"DVC");
        assert_eq!(pool.bytes(), b"DVC");
        assert!(!pool.is_changed());
        pool.memory[GUARD + 3] ^= 1;
        assert!(pool.is_changed());
    }
}
