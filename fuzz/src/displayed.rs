//! A displayed value.

use crate::bytes::Bytes;
use compare::exchange::Asked;

pub fn compare(bytes: &mut Bytes) -> Result<(), String> {
    let wide = bytes.wide();
    let asked = Asked {
        value: bytes.signed(),
        offset: bytes.signed(),
        scale: bytes.number(),
        decimals: wide.number(0, bytes.byte(), 8),
    };
    asked.by_both().map_err(|what| format!("{asked:?}: {what}"))
}
