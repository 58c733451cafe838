//! A text that is examined.

use crate::bytes::Bytes;
use compare::lent::LentPool;
use compare::library;

pub fn compare(bytes: &mut Bytes) -> Result<(), String> {
    let text = LentPool::new(bytes.rest());
    let library = library::text_is_sound(text.bytes());
    let second = second::text_is_sound(text.bytes());
    if library != second {
        Err(format!("the text is sound: {library} against {second}"))
    } else if text.is_changed() {
        Err("the text was changed".into())
    } else {
        Ok(())
    }
}
