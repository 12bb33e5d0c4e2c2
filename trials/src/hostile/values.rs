// Numbers, floats, rates, budgets and lengths of every kind.
use oracle::model::run::{LARGEST_RATE, LEAST_RATE};
use oracle::random::Random;
use oracle::starts::random_rate;

/// A number: near the one it replaces, near a bound, another of its table, or any.
pub fn number(r: &mut Random, near: u64, others: &[u64]) -> u64 {
    match r.below(8) {
        0 => near.wrapping_add(1),
        1 => near.wrapping_sub(1),
        2 => bound(r),
        3 => r.bits(),
        4 if !others.is_empty() => r.pick(others),
        _ => r.below(12),
    }
}

/// A number at a bound, or one beside it.
pub fn bound(r: &mut Random) -> u64 {
    let bounds = [0u64, 8, 9, 16, 32, 255, 256, 1 << 16, 1 << 31, 1 << 32, 1 << 61, 1 << 63];
    r.pick(&bounds).wrapping_add(r.below(3)).wrapping_sub(1)
}

const FLOATS: [f64; 16] = [
    0.,
    -0.,
    1.,
    9.,
    48.,
    f64::MAX,
    f64::MIN,
    f64::INFINITY,
    f64::NEG_INFINITY,
    f64::NAN,
    f64::MIN_POSITIVE,
    1e-300,
    -1e300,
    1024.,
    0.5,
    -1024.,
];

/// A float: near the one it replaces, a special one, a NaN or a subnormal, another of its table, or any.
pub fn float(r: &mut Random, near: f64, others: &[f64]) -> f64 {
    match r.below(10) {
        0 => near.next_up(),
        1 => near.next_down(),
        2 => -near,
        3 => r.pick(&FLOATS),
        4 => f64::from_bits(r.bits()),
        5 => f64::from_bits(r.pick(&[0x7FF0, 0xFFF0, 0x7FF8, 0, 0x8000]) << 48 | r.bits() >> 16),
        6 | 7 if !others.is_empty() => r.pick(others),
        _ => near + r.between(-1., 1.),
    }
}

/// A NaN of any pattern: either sign, quiet or not.
pub fn nan(r: &mut Random) -> f64 {
    f64::from_bits(r.pick(&[0x7FF0, 0xFFF0, 0x7FF8, 0xFFF8]) << 48 | 1 + r.below((1 << 51) - 1))
}

/// A rate, in range for the most part.
pub fn rate(r: &mut Random) -> f64 {
    let (low, high) = (LEAST_RATE, LARGEST_RATE);
    match r.below(16) {
        0 => r.pick(&[low, high, low.next_down(), high.next_up(), low.next_up(), high.next_down()]),
        1 => float(r, 1., &[]),
        _ => random_rate(r),
    }
}

pub fn budget(r: &mut Random) -> u32 {
    match r.below(8) {
        0 => r.pick(&[0, 1, u32::MAX, u32::MAX - 1, 1 << 31]),
        1 => r.bits() as u32,
        2 => 0,
        3 => r.below(200) as u32,
        _ => 1 + r.below(12) as u32,
    }
}

/// A length: of none, about what is needed, somewhat more, or any up to it.
pub fn length(r: &mut Random, need: usize) -> usize {
    match r.below(6) {
        0 => r.below(8) as usize,
        1 => need.saturating_sub(1 + r.below(4) as usize),
        2 => need + r.below(64) as usize,
        3 => r.below(need as u64 + 1) as usize,
        _ => need,
    }
}
