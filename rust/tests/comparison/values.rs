//! Values of primaries, good, bad and drawn (rule 9.2), and colours in bits.

use cavzemil_plain::random::Random;
use cavzemil_plain::{Cellular, Prediction};
use std::fmt;

/// A predicted colour in bits, so that zeros of both signs differ, with the refusal and the colorant or the
/// set that this carries.
#[derive(PartialEq)]
pub struct Bits {
    refusal: u32,
    carried: u32,
    xyz: [u64; 3],
}

impl From<Prediction> for Bits {
    /// Keeps a prediction's bits.
    fn from(prediction: Prediction) -> Bits {
        let Prediction { refusal, colorant, xyz } = prediction;
        Bits { refusal, carried: colorant, xyz: xyz.map(f64::to_bits) }
    }
}

impl From<Cellular> for Bits {
    /// Keeps a cellular prediction's bits.
    fn from(cellular: Cellular) -> Bits {
        let Cellular { refusal, set, xyz } = cellular;
        Bits { refusal, carried: set, xyz: xyz.map(f64::to_bits) }
    }
}

impl fmt::Debug for Bits {
    /// Tells the colour by its values and by their bits.
    fn fmt(&self, formatter: &mut fmt::Formatter) -> fmt::Result {
        let Bits { refusal, carried, xyz } = self;
        let colour = xyz.map(f64::from_bits);
        write!(formatter, "refusal {refusal}, carrying {carried}, colour {colour:?}, in bits {xyz:x?}")
    }
}

/// Values that are good: the ends, zeros of both signs, whole, tiny, subnormal and beside the ends.
pub const GOOD_VALUES: [f64; 14] = [
    0.0,
    -0.0,
    1.0,
    17.0,
    199.0,
    200.0,
    200.0f64.next_down(),
    5e-324,
    1e-310,
    f64::MIN_POSITIVE.next_down(),
    f64::MIN_POSITIVE,
    0.1,
    1e-16,
    128.0f64.next_down(),
];

/// Values that are bad: beside the ends, infinite, huge, not numbers. These last are quiet and signalling, of
/// both signs, with few and with many bits set.
pub const BAD_VALUES: [f64; 18] = [
    200.0f64.next_up(),
    200.5,
    -5e-324,
    -f64::MIN_POSITIVE,
    -1.0,
    -200.0,
    1e308,
    -1e308,
    f64::INFINITY,
    f64::NEG_INFINITY,
    f64::NAN,
    f64::from_bits(0xfff8_0000_0000_0000),
    f64::from_bits(0x7ff0_0000_0000_0001),
    f64::from_bits(0xfff0_0000_0000_0001),
    f64::from_bits(0x7ff4_0000_0000_0000),
    f64::from_bits(0x7ff8_0000_dead_beef),
    f64::from_bits(0x7fff_ffff_ffff_ffff),
    f64::from_bits(0xffff_ffff_ffff_ffff),
];

/// A good value: any from 0 to 200, or a marked one.
pub fn value(random: &mut Random) -> f64 {
    match random.between(0, 3) {
        0 => random.one_of(&GOOD_VALUES),
        1 => f64::from(random.between(0, 200)),
        2 => f64::from_bits(random.bits() % 200.0f64.to_bits()),
        _ => 200.0 * (random.bits() >> 11) as f64 / (1u64 << 53) as f64,
    }
}

/// A bad value, or any bits.
pub fn bad_value(random: &mut Random) -> f64 {
    let (any, bad) = (f64::from_bits(random.bits()), random.one_of(&BAD_VALUES));
    random.one_of(&[any, bad])
}

/// Values simpler than this one: 0 and, unless it is whole, 1 and its whole part.
pub fn simpler_values(value: f64) -> Vec<f64> {
    if value.to_bits() == 0 {
        Vec::new()
    } else if value.fract() == 0.0 {
        vec![0.0]
    } else if value.is_finite() {
        vec![0.0, 1.0, value.trunc()]
    } else {
        vec![0.0, 1.0]
    }
}
