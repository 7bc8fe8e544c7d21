//! Shots from a controller (requests E2 and E13), in metres or in feet, made into the coordinates of a patch.
//!
//! A double is taken apart into whole numbers; each operation on it is worked out exactly, and rounded here. No float
//! arithmetic of the machine has a part in it.

use crate::patch::{Patch, Refusal, LIMIT, SHOT_COUNTS};

/// What one operation multiplies by, and what it divides by.
type Operation = [u128; 2];

/// The operations on metres, and those on feet.
type Scales = [&'static [Operation]; 2];

const METRES: &[Operation] = &[[1000, 1]];
const SURVEY_FEET: &[Operation] = &[[1_200_000, 1], [1, 3937]];
const INTERNATIONAL_FEET: &[Operation] = &[[3048, 1], [1, 10]];

const LEAST_EXPONENT: i32 = -1074;
const MOST_EXPONENT: i32 = 971;

/// A finite double, in size significand * 2^exponent. The significand is below 2^53, and below 2^52 only where the
/// exponent is the least.
#[derive(Clone, Copy)]
struct Double {
    negative: bool,
    significand: u128,
    exponent: i32,
}

impl Double {
    /// The double of a 64-bit pattern, where it is finite.
    fn new(pattern: u64) -> Option<Double> {
        let (field, fraction) = (pattern >> 52 & 0x7ff, pattern & ((1 << 52) - 1));
        // Field 0 lacks the leading bit, and has the exponent of field 1.
        let significand = if field == 0 { fraction } else { fraction | 1 << 52 }.into();
        let exponent = LEAST_EXPONENT + field.max(1) as i32 - 1;
        (field < 0x7ff).then_some(Double { negative: pattern >> 63 == 1, significand, exponent })
    }

    /// The double nearest to the exact answer of an operation, halves to even; none where that is not finite.
    fn after(self, [factor, divisor]: Operation) -> Option<Double> {
        // The answer is over / under * 2^exponent all the time, and over stays below 2^74.
        let (mut over, mut under, mut exponent) = (self.significand * factor, divisor, self.exponent);
        while over / under >= 1 << 53 {
            (under, exponent) = (under * 2, exponent + 1);
        }
        while over / under < 1 << 52 && exponent > LEAST_EXPONENT {
            (over, exponent) = (over * 2, exponent - 1);
        }
        let mut significand = nearest(over, under);
        if significand == 1 << 53 {
            (significand, exponent) = (significand / 2, exponent + 1);
        }
        (exponent <= MOST_EXPONENT).then_some(Double { significand, exponent, ..self })
    }

    /// The nearest whole number, halves to even, where it is in the range of coordinates.
    fn whole(self) -> Option<i32> {
        // With an exponent of 0 or more the size is at least 2^52, far out of the range.
        let places = u32::try_from(-self.exponent).ok()?;
        // Over 2^100 the significand is next to nothing, as it is over any higher power.
        let size = i32::try_from(nearest(self.significand, 1 << places.min(100))).ok()?;
        (size <= LIMIT).then_some(if self.negative { -size } else { size })
    }
}

/// The whole number nearest to over / under, halves to even.
fn nearest(over: u128, under: u128) -> u128 {
    let (whole, left) = (over / under, over % under);
    let up = 2 * left > under || 2 * left == under && whole % 2 == 1;
    whole + u128::from(up)
}

/// A value of this unit in millimetres, before it is made whole; none where it or an operation's answer is not finite.
fn millimetres([metres, feet]: Scales, unit: u8, value: u64) -> Option<Double> {
    let operations = if unit == 0 { metres } else { feet };
    operations.iter().try_fold(Double::new(value)?, |double, &operation| double.after(operation))
}

/// The two coordinates of a shot. Both are looked at for 16 before either is for 2.
fn shot(scales: Scales, unit: u8, position: &[u64]) -> Result<Vec<i32>, Refusal> {
    let doubles: Option<Vec<_>> = position.iter().map(|&value| millimetres(scales, unit, value)).collect();
    let wholes: Option<Vec<_>> = doubles.ok_or(Refusal::NotFinite)?.into_iter().map(Double::whole).collect();
    wholes.ok_or(Refusal::Range)
}

/// The operations of an edition.
fn scales(edition: u64) -> Result<Scales, Refusal> {
    match edition {
        1 => Ok([METRES, SURVEY_FEET]),
        2 => Ok([METRES, INTERNATIONAL_FEET]),
        _ => Err(Refusal::Edition),
    }
}

/// The coordinates of an accepted patch, from a unit for each shot, and its east and its north as patterns of doubles.
pub fn take_runs(edition: u64, units: &[u8], values: &[u64]) -> Result<Vec<i32>, Refusal> {
    let scales = scales(edition)?;
    if values.len() != 2 * units.len() || !SHOT_COUNTS.contains(&units.len()) {
        return Err(Refusal::ShotCount);
    }
    let positions = units.iter().zip(values.chunks(2));
    let shots: Result<Vec<_>, _> = positions.map(|(&unit, position)| shot(scales, unit, position)).collect();
    let coordinates = shots?.concat();
    Patch::accept(&coordinates).map(|_| coordinates)
}

/// The same of the first `count` shots of ten. A count that no patch has is refused as no shots are.
pub fn take(edition: u64, units: &[u8], values: &[u64], count: u64) -> Result<Vec<i32>, Refusal> {
    let count = usize::try_from(count).ok().filter(|count| SHOT_COUNTS.contains(count)).unwrap_or(0);
    take_runs(edition, &units[..count], &values[..2 * count])
}
