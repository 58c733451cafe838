//! Displayed values, bit by bit.

use second::displayed;

const LEAST: u32 = 0x322B_CC77;
const GREATEST: u32 = 0x4CBE_BC20;

/// The sum times the scale's mantissa, in whole numbers.
fn whole_product(value: i32, offset: i32, scale_bits: u32) -> i128 {
    let mantissa = i128::from(scale_bits % (1 << 23) + (1 << 23));
    (i128::from(value) + i128::from(offset)) * mantissa
}

/// The product, rounded once; the power of two is exact.
fn rounded_once(value: i32, offset: i32, scale_bits: u32) -> f64 {
    let exponent = (scale_bits >> 23) as i32 - 150;
    whole_product(value, offset, scale_bits) as f64 * 2.0_f64.powi(exponent)
}

#[test]
fn the_worked_value_is_displayed() {
    assert_eq!(displayed(100, -20, 0.5, 0), Ok(40.0));
}

#[test]
fn the_limits_belong_to_the_range() {
    for decimals in 0..=7 {
        for bits in [LEAST, GREATEST] {
            let expected = rounded_once(3, 4, bits);
            let result = displayed(3, 4, f32::from_bits(bits), decimals);
            assert_eq!(result, Ok(expected));
        }
        for bits in [LEAST - 1, GREATEST + 1] {
            let result = displayed(3, 4, f32::from_bits(bits), decimals);
            assert_eq!(result, Err(50));
        }
    }
    for decimals in (8..=255).chain([256, 257, 65_536, 1 << 31]) {
        assert_eq!(displayed(3, 4, 1.0, decimals), Err(50));
    }
}

#[test]
fn scales_that_are_no_positive_numbers_are_50() {
    for bits in [
        0,
        1,
        0x7F7F_FFFF,
        0x7F80_0000,
        0x7F80_0001,
        0x7FC0_0000,
        0x7FFF_FFFF,
        0x8000_0000,
        LEAST | 1 << 31,
        0xBF80_0000,
        0xFF80_0000,
        0xFFC0_0000,
        u32::MAX,
    ] {
        assert_eq!(displayed(1, 1, f32::from_bits(bits), 0), Err(50));
    }
}

#[test]
fn the_product_is_rounded_once() {
    let sums = [
        (i32::MIN, i32::MIN),
        (i32::MAX, i32::MAX),
        (i32::MIN, i32::MAX),
        (i32::MIN, -1),
        (i32::MAX, 1),
        (-1, 0),
        (123_456_789, 987_654_321),
        (i32::MAX, i32::MAX - 1),
    ];
    let mut inexact = 0;
    for step in 0..40_000 {
        let bits = LEAST + (GREATEST - LEAST) / 40_000 * step;
        for (value, offset) in sums {
            let result = displayed(value, offset, f32::from_bits(bits), 7).unwrap();
            let expected = rounded_once(value, offset, bits);
            assert_eq!(result.to_bits(), expected.to_bits());
            let product = whole_product(value, offset, bits);
            inexact += u32::from(product as f64 as i128 != product);
        }
    }
    assert!(inexact > 10_000, "{inexact}");
}

#[test]
fn a_sum_of_0_is_a_positive_zero() {
    for (value, offset) in [(0, 0), (5, -5), (i32::MAX, -i32::MAX)] {
        let result = displayed(value, offset, 0.1, 0).unwrap();
        assert_eq!(result.to_bits(), 0);
    }
}
