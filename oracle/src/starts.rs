// Random starts of many kinds: boxes, packings, radii, positions on and off every border, speeds and zeros.
use crate::model::grid::cells_along;
use crate::model::run::{LARGEST_RATE, LEAST_RATE};
use crate::radii::Radii;
use crate::random::Random;
use crate::text::Start;

const LENGTHS: [f64; 10] =
    [9., 12., 15., 48., 9.000000000000002, 11.999999999999998, 47.99999999999999, 10.5, 13.37, 17.0625];
const STILL: [f64; 2] = [0., -0.];

pub fn random_start(r: &mut Random) -> Start {
    let lengths = [length(r), length(r)];
    let periodic = r.pick(&[[true, true], [true, false], [false, true], [false, false]]);
    let room = match r.below(8) {
        0 => 16 + r.below(48),
        1 => 32,
        2 | 3 => 64,
        4 | 5 => 128,
        6 => 16 + r.below(241),
        _ => 256,
    };
    let rate = random_rate(r);
    let grains = count(r, lengths);
    let radii = r.pick(&Radii::ALL);
    start_with(r, Start { lengths, periodic, rate, room, grains: Vec::new() }, grains, radii)
}

/// So many grains, in an empty start whose box is in range.
pub fn start_with(r: &mut Random, mut start: Start, grains: u64, radii: Radii) -> Start {
    let styles = random_styles(r);
    for n in 0..grains {
        let other = random_styles(r);
        let styles = if r.once_in(10) { other } else { styles };
        let rad = radii.draw(r);
        let [x, y] = [0, 1].map(|dim| coordinate(r, &start, n, dim, rad, styles[dim].0));
        let [vx, vy] = [0, 1].map(|dim| velocity(r, styles[dim].1));
        let val = match r.below(4) {
            0 => r.pick(&[0., 1., 0.5, -0.]),
            _ => r.between(0., 1.),
        };
        start.grains.push([x, y, vx, vy, val, rad]);
    }
    start
}

/// How positions and velocities are drawn, in each direction; half of the time alike in both.
fn random_styles(r: &mut Random) -> [(u64, u64); 2] {
    let first = (r.below(6), r.below(7));
    let second = (r.below(6), r.below(7));
    [first, if r.once_in(2) { first } else { second }]
}

/// A rate within document 01's range, its ends included.
pub fn random_rate(r: &mut Random) -> f64 {
    match r.below(12) {
        0 => LEAST_RATE,
        1 => LARGEST_RATE,
        2 => 1.,
        3 => 0.25,
        4 | 5 => r.between(0.01, 0.2),
        _ => r.between(0.1, 4.),
    }
}

fn length(r: &mut Random) -> f64 {
    match r.below(7) {
        0 | 1 => 9.,
        2 => r.pick(&LENGTHS),
        3 => r.between(9., 12.),
        4 => r.between(9., 48.),
        5 => 9. + r.below(40) as f64,
        _ => 9. + r.below(20) as f64 / 4.,
    }
}

fn count(r: &mut Random, lengths: [f64; 2]) -> u64 {
    let area = lengths[0] * lengths[1];
    let most = match r.below(6) {
        0 => return r.below(4),
        1 => 8.,
        2 => area * 0.2,
        3 | 4 => area * 0.7,
        _ => area * 1.2,
    };
    r.below((most as u64).min(200) + 1)
}

/// A position in the accepted range; grain `n` on a lattice touches its neighbours there, if both have the greatest radius.
fn coordinate(r: &mut Random, s: &Start, n: u64, dim: usize, rad: f64, style: u64) -> f64 {
    let length = s.lengths[dim];
    let (low, high) = if s.periodic[dim] { (0., length) } else { (rad, length - rad) };
    let x = match style {
        0 | 1 => return r.between(low, high),
        2 => (r.below(4 * length as u64 + 1) as f64) / 4.,
        3 => {
            let columns = cells_along(length);
            let border = length / columns as f64 * r.below(columns as u64 + 1) as f64;
            let x = border + r.pick(&[-rad, 0., rad, 2. * rad]);
            r.pick(&[x, x.next_up(), x.next_down()])
        }
        4 => {
            let across = s.lengths[0] as u64 - 1;
            let at = if dim == 0 { n % across } else { n / across % (s.lengths[1] as u64 - 1) };
            at as f64 + r.pick(&[0.5, 0.5, 0.5, 0.75])
        }
        _ => r.pick(&[low, high, length / 2., low.next_up(), high.next_down(), -0.]),
    };
    if s.periodic[dim] && x == 0. {
        return x;
    }
    x.clamp(low, high)
}

fn velocity(r: &mut Random, style: u64) -> f64 {
    match style {
        0 => r.pick(&STILL),
        1 | 2 => r.between(-1., 1.),
        3 => (r.below(17) as f64 - 8.) / 4.,
        4 => r.between(-1024., 1024.),
        5 => r.pick(&[-1024., 1024., -0., 0., 1., -1., 0.125, 2.]),
        _ => r.between(-1., 1.) / 2f64.powi(r.below(30) as i32),
    }
}
