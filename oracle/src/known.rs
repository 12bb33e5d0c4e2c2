// Starts that more than one command follows, by name; and a grain as they write it.
use crate::model::grid::GREATEST_RADIUS;
use crate::model::state::Inputs;
use crate::text::Start;

pub const PERIODIC: [bool; 2] = [true, true];

/// A grain of value 0.5 and the greatest radius.
pub fn grain(x: f64, y: f64, vx: f64, vy: f64) -> Inputs {
    sized(x, y, vx, vy, GREATEST_RADIUS)
}

/// A grain of value 0.5 and this radius.
pub fn sized(x: f64, y: f64, vx: f64, vy: f64, rad: f64) -> Inputs {
    [x, y, vx, vy, 0.5, rad]
}

/// One grain at rest, with both zeros.
pub fn still() -> Start {
    Start::small(PERIODIC, 16, &[grain(4.5, 4.5, 0., -0.)])
}

/// One fast grain between walls, and one whose velocity has a negative zero.
pub fn fast() -> Start {
    Start::small([false, true], 64, &[grain(1.3, 2.2, 900.5, 31.25), [6.1, 7.7, -0., 0.3, 0.125, 0.5]])
}

/// Six grains that touch each other, at round positions.
pub fn lattice() -> Start {
    let grain =
        |n| [1.5 + (n % 3) as f64, 3.5 + (n / 3) as f64, 0.37 - 0.11 * n as f64, 0.05 * n as f64, 1., 0.5];
    Start::small([false, true], 64, &[0, 1, 2, 3, 4, 5].map(grain))
}

/// Where the two periodic corrections go apart: a grain in a periodic box.
pub fn correction() -> Start {
    Start::small(PERIODIC, 64, &[grain(5.5, 1.625, -1., 0.25)])
}

/// The same with walls in one direction.
pub fn correction_at_walls() -> Start {
    Start::small([false, true], 64, &[grain(8.5, 1.5, 1., 0.25), grain(8., 3.625, 0., 0.)])
}

/// A grain between walls, at exactly length less radius: the radius added again, the sum is above the length.
pub fn length_less_radius() -> Start {
    let (length, rad) = (11.44, 0.367);
    let grain = sized(length - rad, 4.5, -1., 0., rad);
    Start { lengths: [length, 9.], ..Start::small([false, true], 64, &[grain]) }
}

/// Two grains that meet, between walls in one direction; nothing is refused for a long while.
pub fn meeting() -> Start {
    Start::small([true, false], 64, &[grain(1.25, 4.75, 0.5, 0.25), grain(6.1, 4.6, -0.75, 0.3)])
}
