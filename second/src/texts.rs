//! Texts in UTF-8.

/// Most characters (code points) of a text.
const MAX_CHARACTERS: usize = 32;
const BYTE_ORDER_MARK: &[u8] = b"\xEF\xBB\xBF";

/// A text in a pool.
#[derive(Clone, Copy)]
pub struct Text<'a> {
    /// The pool from the start of the text.
    from: &'a [u8],
    length: usize,
}

impl<'a> Text<'a> {
    /// The text at the start, whose length byte comes first, and what follows.
    #[inline]
    pub fn split(bytes: &'a [u8]) -> (Self, &'a [u8]) {
        let length = usize::from(bytes[0]);
        let from = &bytes[1..];
        (Text { from, length }, &from[length..])
    }

    #[inline]
    pub fn bytes(self) -> &'a [u8] {
        &self.from[..self.length]
    }

    /// Whether the text is well-formed, has no byte order mark and is short
    /// enough.
    #[inline]
    pub fn is_sound(self) -> bool {
        // Most texts are short and ASCII; then nothing can be wrong with them.
        self.is_short_ascii() || self.is_sound_utf8()
    }

    /// May be false for a short ASCII text at the pool's end. Always looks at
    /// 32 bytes: branches on the length are mispredicted so often that they
    /// take longer.
    #[inline]
    fn is_short_ascii(self) -> bool {
        let (Some(window), Some(masks)) = (
            self.from.first_chunk::<MAX_CHARACTERS>(),
            HIGH_BITS.get(self.length),
        ) else {
            return false;
        };
        let (words, _) = window.as_chunks::<8>();
        let mut high = 0;
        for (word, mask) in words.iter().zip(masks) {
            high |= u64::from_le_bytes(*word) & mask;
        }
        high == 0
    }

    #[inline(never)]
    fn is_sound_utf8(self) -> bool {
        let text = self.bytes();
        std::str::from_utf8(text).is_ok_and(|characters| {
            // No text has more characters than bytes.
            !text.starts_with(BYTE_ORDER_MARK)
                && (text.len() <= MAX_CHARACTERS || characters.chars().count() <= MAX_CHARACTERS)
        })
    }
}

/// Whether these bytes as a whole are a sound text.
pub fn text_is_sound(text: &[u8]) -> bool {
    let text = Text {
        from: text,
        length: text.len(),
    };
    text.is_sound()
}

/// For each length of a short text, the high bits of its bytes within a window
/// of little-endian words.
static HIGH_BITS: [[u64; 4]; MAX_CHARACTERS + 1] = high_bits();

const fn high_bits() -> [[u64; 4]; MAX_CHARACTERS + 1] {
    let mut masks = [[0; 4]; MAX_CHARACTERS + 1];
    let mut length = 1;
    while length <= MAX_CHARACTERS {
        let last = length - 1;
        masks[length] = masks[last];
        masks[length][last / 8] |= 0x80 << (8 * (last % 8));
        length += 1;
    }
    masks
}
