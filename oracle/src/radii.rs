// The radii that drawn grains have.
use crate::model::grid::{GREATEST_RADIUS, LEAST_RADIUS};
use crate::model::state::INPUTS;
use crate::random::Random;
use crate::text::Start;

/// The three sizes.
pub const SIZES: [f64; 3] = [LEAST_RADIUS, 0.35, GREATEST_RADIUS];

#[derive(Clone, Copy, PartialEq, Eq, PartialOrd, Ord, Debug)]
pub enum Radii {
    /// All 0.5: nothing is drawn, so what else is drawn is as if there were no radii.
    Half,
    Three,
    Any,
}

impl Radii {
    pub const ALL: [Radii; 3] = [Radii::Half, Radii::Three, Radii::Any];

    /// The kind that a start's grains have.
    pub fn of(start: &Start) -> Radii {
        let all = |sizes: &[f64]| start.grains.iter().all(|grain| sizes.contains(&grain[INPUTS - 1]));
        if all(&[GREATEST_RADIUS]) {
            Radii::Half
        } else if all(&SIZES) {
            Radii::Three
        } else {
            Radii::Any
        }
    }

    pub fn name(self) -> &'static str {
        match self {
            Radii::Half => "all radii 0.5",
            Radii::Three => "three sizes",
            Radii::Any => "any radii",
        }
    }

    pub fn draw(self, r: &mut Random) -> f64 {
        match self {
            Radii::Half => GREATEST_RADIUS,
            Radii::Three => r.pick(&SIZES),
            Radii::Any if r.once_in(8) => r.pick(&[LEAST_RADIUS.next_up(), GREATEST_RADIUS.next_down()]),
            Radii::Any => r.between(LEAST_RADIUS, GREATEST_RADIUS),
        }
    }
}
