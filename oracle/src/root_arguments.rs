// Arguments of square roots, by kind: for the comparison with the processor's, and for the benchmark.
use crate::random::Random;

/// A kind of arguments, by name, and how one is drawn.
pub struct Kind {
    pub name: &'static str,
    pub draw: fn(&mut Random) -> f64,
}

/// The kinds that the benchmark tells apart.
pub static PLAIN: [Kind; 4] = [
    Kind { name: "random", draw: positive },
    Kind { name: "tiny", draw: tiny },
    Kind { name: "subnormal", draw: subnormal },
    Kind { name: "perfect squares", draw: square },
];

/// Where a rounding, or a refusal, is decided.
static HARD: [Kind; 4] = [
    Kind { name: "beside a perfect square", draw: |r| beside(square(r), r) },
    Kind { name: "beside the middle of two roots", draw: |r| beside(middle(r), r) },
    Kind { name: "from 0 to 2^24, as collisions ask", draw: asked },
    Kind { name: "any bits, negative and NaN too", draw: |r| f64::from_bits(r.bits()) },
];

pub fn kinds() -> impl Iterator<Item = &'static Kind> {
    PLAIN.iter().chain(&HARD)
}

/// Where the bits of the normal floats begin, and those of infinity.
const NORMAL: u64 = 1 << 52;
const INFINITE: u64 = 0x7FF << 52;

fn positive(r: &mut Random) -> f64 {
    f64::from_bits(1 + r.below(INFINITE - 1))
}

/// Of the 64 least exponents, at full width.
fn tiny(r: &mut Random) -> f64 {
    f64::from_bits(NORMAL + r.below(NORMAL << 6))
}

/// Of every width.
fn subnormal(r: &mut Random) -> f64 {
    let least = 1 << r.below(52);
    f64::from_bits(least + r.below(least))
}

/// The square of a whole number below 2^26, times a power of 4: nothing is rounded.
fn square(r: &mut Random) -> f64 {
    let root = 1 + r.below((1 << 26) - 1);
    scaled((root * root) as f64, r)
}

/// The float nearest to the square of what lies in the middle between two floats.
fn middle(r: &mut Random) -> f64 {
    let root = u128::from((NORMAL + r.below(NORMAL)) * 2 + 1);
    scaled((root * root) as f64 / (NORMAL as f64 * NORMAL as f64), r)
}

fn scaled(x: f64, r: &mut Random) -> f64 {
    x * 4f64.powi(r.below(960) as i32 - 485)
}

/// The float itself, or one of its two neighbours.
fn beside(x: f64, r: &mut Random) -> f64 {
    r.pick(&[x.next_down(), x, x.next_up()])
}

fn asked(r: &mut Random) -> f64 {
    r.between(0., 1.) * 2f64.powi(r.below(77) as i32 - 52)
}

#[cfg(test)]
mod tests {
    use super::*;

    #[test]
    fn the_kinds_are_what_they_say() {
        let mut r = Random(7);
        for _ in 0..10_000 {
            assert!(positive(&mut r) > 0. && positive(&mut r).is_finite());
            assert!(tiny(&mut r).is_normal() && tiny(&mut r) < 2f64.powi(-957));
            assert!(subnormal(&mut r).is_subnormal());
            let whole = square(&mut r);
            assert!(whole.is_normal() && whole.sqrt() * whole.sqrt() == whole);
            assert!(middle(&mut r).is_normal());
            assert!((0. ..=16_777_216.).contains(&asked(&mut r)));
        }
    }
}
