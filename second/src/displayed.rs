//! The displayed value of a process data value.

use crate::rules::{MAX_DECIMALS, SCALE_BITS};

const BAD_PRESENTATION: u8 = 50;

/// The value after applying a presentation's offset, scale and decimals, or
/// the number of the refusal.
pub fn displayed(value: i32, offset: i32, scale: f32, decimals: u32) -> Result<f64, u8> {
    if !SCALE_BITS.contains(&scale.to_bits()) || decimals > MAX_DECIMALS.into() {
        return Err(BAD_PRESENTATION);
    }
    // Both factors are exact, so that only the product is rounded.
    let sum = i64::from(value) + i64::from(offset);
    Ok(sum as f64 * f64::from(scale))
}
