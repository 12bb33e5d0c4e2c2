// The starts that are tried: mostly small boxes with little room, whose tables are short, so that many
// events can be compared; large ones now and then; and starts that are refused. Their radii are all 0.5, of
// three sizes, or any.
use oracle::model::grid::{GREATEST_RADIUS, LEAST_RADIUS};
use oracle::model::state::INPUTS;
use oracle::radii::Radii;
use oracle::random::Random;
use oracle::starts::{random_rate, random_start, start_with};
use oracle::text::Start;

/// One of several, some of which were drawn too.
pub fn one_of<T: Copy, const N: usize>(choices: [T; N], r: &mut Random) -> T {
    r.pick(&choices)
}

pub fn trial_start(r: &mut Random) -> Start {
    match r.below(64) {
        0 => random_start(r),
        1 => refused_start(r),
        2 => wide_start(r),
        3..=6 => middling_start(r),
        _ => small_start(r),
    }
}

/// A rate, seldom one of the ends of its range: then nearly every event is a synchronisation, or none.
pub fn trial_rate(r: &mut Random) -> f64 {
    if r.once_in(6) {
        random_rate(r)
    } else {
        r.between(0.5, 6.)
    }
}

fn of_size(r: &mut Random, lengths: [f64; 2], room: u64, grains: u64) -> Start {
    let periodic = r.pick(&[[true, true], [true, false], [false, true], [false, false]]);
    let rate = trial_rate(r);
    let radii = r.pick(&Radii::ALL);
    start_with(r, Start { lengths, periodic, rate, room, grains: Vec::new() }, grains, radii)
}

/// 9 to 20 cells, room 16 to 32, up to 22 grains.
pub fn small_start(r: &mut Random) -> Start {
    let lengths = [short_length(r), short_length(r)];
    let room = one_of([16, 24, 32, 16 + r.below(17)], r);
    let grains = r.below(2 + 2 * room / 3);
    of_size(r, lengths, room, grains)
}

fn short_length(r: &mut Random) -> f64 {
    match r.below(8) {
        0 | 1 => 9.,
        2 => 9. + r.below(16) as f64 / 4.,
        3 => r.pick(&[9.000000000000002, 11.999999999999998, 12., 12.000000000000002, 13.37]),
        4 => r.between(12., 15.),
        _ => r.between(9., 12.),
    }
}

/// Up to 64 cells, room 32 to 128, up to 60 grains.
fn middling_start(r: &mut Random) -> Start {
    let lengths = [r.between(9., 24.), r.between(9., 24.)];
    let room = r.pick(&[32, 48, 64, 128]);
    let grains = r.below(61);
    of_size(r, lengths, room, grains)
}

/// 64 to 256 cells, room 16 to 64, up to 256 grains.
fn wide_start(r: &mut Random) -> Start {
    let lengths = [r.between(24., 48.), r.between(24., 48.)];
    let room = r.pick(&[16, 24, 32, 64]);
    let grains = r.below(257);
    of_size(r, lengths, room, grains)
}

/// The largest box, count and room.
pub fn largest_start(r: &mut Random) -> Start {
    of_size(r, [48., 48.], 256, 256)
}

/// The least and the most of everything.
pub fn extreme_starts(r: &mut Random) -> Vec<Start> {
    let mut all =
        vec![of_size(r, [9., 9.], 16, 0), of_size(r, [48., 48.], 16, 0), of_size(r, [9., 48.], 256, 1)];
    all.extend((0..8).map(|_| largest_start(r)));
    all
}

/// A start with one or two numbers out of range.
fn refused_start(r: &mut Random) -> Start {
    let mut start = small_start(r);
    for _ in 0..1 + r.below(2) {
        let numbers = [f64::NAN, f64::INFINITY, -1., 48.5, 8.999999999999998, 1e300, 1024.0000000000002];
        let bad = one_of([r.pick(&numbers), LEAST_RADIUS.next_down(), GREATEST_RADIUS.next_up()], r);
        let grains = start.grains.len() as u64;
        match r.below(4) {
            0 => start.lengths[r.below(2) as usize] = bad,
            1 => start.room = r.pick(&[0, 15, 257, u64::MAX]),
            _ if grains > 0 => {
                let (grain, number) = (r.below(grains) as usize, r.below(INPUTS as u64) as usize);
                start.grains[grain][number] = bad;
            }
            _ => {}
        }
    }
    start
}

/// About how many words the tables of a start have.
pub fn words(start: &Start) -> u64 {
    (start.cells() as u64).saturating_mul(start.room.saturating_mul(14))
}
