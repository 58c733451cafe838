//! Displayed values against the second implementation's and against the
//! product in whole numbers, bit by bit.

use super::library::displayed;
use crate::grid::Grid;
use crate::objects::{GREATEST_SCALE, LEAST_SCALE};
use crate::part::Part;
use crate::random::Random;
use std::ops::RangeInclusive;

const MOST_DECIMALS: u32 = 7;
/// Offsets and values: the ends of their range, their neighbours and some
/// between.
const NUMBERS: [i32; 15] = [
    i32::MIN,
    i32::MIN + 1,
    -0x4000_0000,
    -1_000_001,
    -3,
    -2,
    -1,
    0,
    1,
    2,
    3,
    1_000_001,
    0x4000_0000,
    i32::MAX - 1,
    i32::MAX,
];
/// Scales where one kind begins or ends, with neighbours; among them NaNs of
/// several patterns.
const SCALES: [u32; 42] = [
    0,
    1,
    0x007F_FFFF,
    0x0080_0000,
    LEAST_SCALE - 0x80_0000,
    LEAST_SCALE - 2,
    LEAST_SCALE - 1,
    LEAST_SCALE,
    LEAST_SCALE + 1,
    LEAST_SCALE + 2,
    0x3A83_126F,
    0x3DCC_CCCD,
    0x3EAA_AAAB,
    0x3F00_0000,
    0x3F7F_FFFF,
    0x3F80_0000,
    0x3F80_0001,
    0x3FFF_FFFF,
    0x4120_0000,
    0x4B7F_FFFF,
    GREATEST_SCALE - 2,
    GREATEST_SCALE - 1,
    GREATEST_SCALE,
    GREATEST_SCALE + 1,
    GREATEST_SCALE + 2,
    0x7F7F_FFFF,
    0x7F80_0000,
    0x7F80_0001,
    0x7FA5_5A5A,
    0x7FBF_FFFF,
    0x7FC0_0000,
    0x7FFF_FFFF,
    0x8000_0000,
    0x8000_0001,
    LEAST_SCALE | 1 << 31,
    0xBF80_0000,
    GREATEST_SCALE | 1 << 31,
    0xFF7F_FFFF,
    0xFF80_0000,
    0xFF80_0001,
    0xFFC0_0000,
    0xFFFF_FFFF,
];
/// Decimals around the greatest, and some that fit without their upper bits.
const DECIMALS: [u32; 10] = [0, 1, 6, 7, 8, 9, 255, 256, 0x1_0001, 1 << 31];

const ROWS: [&str; 12] = [
    "zero",
    "below the least",
    "the least but one",
    "the least",
    "between",
    "the greatest",
    "the greatest and one",
    "above the greatest",
    "infinity",
    "NaN",
    "negative",
    "negative NaN",
];
/// Scales of these rows are in range.
const IN_RANGE: RangeInclusive<usize> = 3..=5;
/// The greatest scale's mantissa is a multiple of 32, so every product is
/// exact.
const GREATEST_ROW: usize = 5;
const COLUMNS: &[&str] = &[
    "0 sum 0",
    "0 exact",
    "0 rounded up",
    "0 rounded down",
    "0 half up",
    "0 half down",
    "50 scale",
    "50 decimals",
    "50 both",
];

/// Values at the ends of all ranges, and `seeded` seeded ones.
pub fn compare(seed: u64, seeded: u64) -> Part {
    let grid = Grid::new(
        "displayed, by scale",
        ROWS,
        COLUMNS,
        |row, column| match column {
            "50 scale" | "50 both" => !IN_RANGE.contains(&row),
            "0 sum 0" | "0 exact" | "50 decimals" => IN_RANGE.contains(&row),
            _ => IN_RANGE.contains(&row) && row != GREATEST_ROW,
        },
    );
    let mut part = Part::new("displayed values", vec![grid]);
    compare_known(&mut part);
    for scale in SCALES {
        for decimals in DECIMALS {
            for value in NUMBERS {
                for offset in NUMBERS {
                    compare_one(
                        &mut part,
                        Asked {
                            value,
                            offset,
                            scale,
                            decimals,
                        },
                    );
                }
            }
        }
    }
    for index in 0..seeded {
        let random = &mut Random::for_item(seed ^ 0xD159, index);
        compare_one(&mut part, Asked::draw(random));
    }
    part
}

/// A displayed value as its bits, or a refusal's number with 0.
#[derive(Clone, Copy, Debug, PartialEq, Eq)]
struct Shown {
    number: u32,
    bits: u64,
    /// Whether the memory around the value is unchanged.
    apart: bool,
}

impl Shown {
    fn by_library(asked: Asked) -> Self {
        // A number that no call gives.
        const BESIDE: u64 = 0xA5A5_5A5A_C3C3_3C3C;
        let mut lent = [f64::from_bits(BESIDE); 3];
        let scale = f32::from_bits(asked.scale);
        let number = displayed(
            asked.value,
            asked.offset,
            scale,
            asked.decimals,
            &mut lent[1],
        );
        Shown {
            number,
            bits: lent[1].to_bits(),
            apart: [lent[0], lent[2]].map(f64::to_bits) == [BESIDE; 2],
        }
    }

    fn by_second(asked: Asked) -> Self {
        let scale = f32::from_bits(asked.scale);
        Shown::of(second::displayed(
            asked.value,
            asked.offset,
            scale,
            asked.decimals,
        ))
    }

    /// The same value in the library's form.
    fn of(result: Result<f64, u8>) -> Self {
        Shown {
            number: result.err().unwrap_or(0).into(),
            bits: result.unwrap_or(0.0).to_bits(),
            apart: true,
        }
    }
}

/// A value, and the presentation by which it is to be displayed.
#[derive(Clone, Copy, Debug)]
pub struct Asked {
    pub value: i32,
    pub offset: i32,
    /// As bits.
    pub scale: u32,
    pub decimals: u32,
}

impl Asked {
    /// Mostly with a scale in range, so that the product is compared.
    fn draw(random: &mut Random) -> Self {
        let between = random.between(LEAST_SCALE as usize, GREATEST_SCALE as usize) as u32;
        let any = random.draw() as u32;
        let scales = [between, between, between, between, between, any];
        let edge = random.pick(&SCALES);
        let scale = if random.one_in(8) {
            edge
        } else {
            random.pick(&scales)
        };
        let (value, offset) = (number(random), number(random));
        let offset = if random.one_in(50) {
            value.wrapping_neg()
        } else {
            offset
        };
        let decimals = match random.below(10) {
            0 => u32::from(random.byte()) << random.below(25),
            1 => random.pick(&[7, 8]),
            _ => random.below(8) as u32,
        };
        Asked {
            value,
            offset,
            scale,
            decimals,
        }
    }

    /// Has both sides display the value, and compares them with each other and
    /// with the product in whole numbers.
    pub fn by_both(self) -> Result<(), String> {
        let library = Shown::by_library(self);
        let second = Shown::by_second(self);
        let expected = self.expected();
        if library != second {
            Err(format!("{library:?} against {second:?}"))
        } else if second != expected {
            Err(format!("{second:?} against {expected:?} in whole numbers"))
        } else {
            Ok(())
        }
    }

    fn scale_fits(self) -> bool {
        (LEAST_SCALE..=GREATEST_SCALE).contains(&self.scale)
    }

    fn row(self) -> usize {
        const INFINITY: u32 = 0x7F80_0000;
        match self.scale {
            0 => 0,
            LEAST_SCALE => 3,
            GREATEST_SCALE => 5,
            scale if scale == LEAST_SCALE - 1 => 2,
            scale if scale == GREATEST_SCALE + 1 => 6,
            scale if scale < LEAST_SCALE => 1,
            scale if scale < GREATEST_SCALE => 4,
            scale if scale < INFINITY => 7,
            INFINITY => 8,
            scale if scale < 1 << 31 => 9,
            scale if scale <= INFINITY | 1 << 31 => 10,
            _ => 11,
        }
    }

    /// The sum times the scale's mantissa, and the exponent of the power of two
    /// by which that is still to be multiplied.
    fn whole_product(self) -> (i128, i32) {
        let mantissa = i128::from(self.scale % (1 << 23) + (1 << 23));
        let sum = i128::from(self.value) + i128::from(self.offset);
        (sum * mantissa, (self.scale >> 23) as i32 - 150)
    }

    /// The value computed in whole numbers and rounded once: the power of two
    /// is exact.
    fn expected(self) -> Shown {
        let fits = self.scale_fits() && self.decimals <= MOST_DECIMALS;
        let (product, exponent) = self.whole_product();
        Shown::of(if fits {
            Ok(product as f64 * 2.0_f64.powi(exponent))
        } else {
            Err(50)
        })
    }

    fn column(self) -> &'static str {
        match (self.scale_fits(), self.decimals <= MOST_DECIMALS) {
            (false, false) => return "50 both",
            (false, true) => return "50 scale",
            (true, false) => return "50 decimals",
            (true, true) => {}
        }
        let product = self.whole_product().0;
        let rounded = product as f64 as i128;
        let step = 1_i128 << (128 - product.unsigned_abs().leading_zeros()).saturating_sub(53);
        let up = rounded.abs() > product.abs();
        match 2 * (rounded - product).abs() {
            _ if product == 0 => "0 sum 0",
            0 => "0 exact",
            twice if twice == step && up => "0 half up",
            twice if twice == step => "0 half down",
            _ if up => "0 rounded up",
            _ => "0 rounded down",
        }
    }
}

fn number(random: &mut Random) -> i32 {
    let any = random.draw() as i32;
    // Of any width, so that exact products are among them.
    let short = any >> random.below(32);
    let edge = random.pick(&NUMBERS);
    random.pick(&[any, any, any, short, short, edge])
}

/// Values that are known beforehand.
fn compare_known(part: &mut Part) {
    for (value, offset, scale, expected) in [
        (100, -20, 0.5, 40.0),
        (i32::MAX, i32::MAX, 1.0, 4_294_967_294.0),
        (i32::MIN, i32::MIN, 1.0, -4_294_967_296.0),
        (5, -5, 0.1, 0.0),
    ] {
        let scale = f32::to_bits(scale);
        let asked = Asked {
            value,
            offset,
            scale,
            decimals: 0,
        };
        compare_one(part, asked);
        if asked.expected() != Shown::of(Ok(expected)) {
            part.note("the whole product parts from what is known", || {
                format!("{asked:?}")
            });
        }
    }
}

fn compare_one(part: &mut Part, asked: Asked) {
    let outcome = asked.by_both().map(|()| asked.column());
    part.take(0, asked.row(), outcome, || format!("{asked:?}"));
}
