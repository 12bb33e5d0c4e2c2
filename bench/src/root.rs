// How long one square root takes, by the kind of its argument: the compiled call's, and the processor's. The roots must be equal.
use crate::{timed, ROUNDS};
use oracle::random::Random;
use oracle::report::{head, row};
use oracle::root_arguments::PLAIN;
use std::hint::black_box;

/// So many arguments of a kind, and so often in a round.
const ARGUMENTS: usize = 4096;
const TIMES: usize = 200;

/// Nanoseconds of one root: the best round.
fn nanoseconds<R>(arguments: &[f64], root: impl Fn(f64) -> R) -> f64 {
    let all = || arguments.iter().for_each(|&d| drop(black_box(root(black_box(d)))));
    let round = |_| timed(|| (0..TIMES).for_each(|_| all()));
    (0..ROUNDS).map(round).fold(f64::MAX, f64::min) * 1e9 / (ARGUMENTS * TIMES) as f64
}

pub fn table() {
    let mut random = Random(1);
    head(&["Arguments", "Port, ns a root", "Processor, ns a root"]);
    for kind in &PLAIN {
        let arguments: Vec<f64> = (0..ARGUMENTS).map(|_| (kind.draw)(&mut random)).collect();
        let same = |&d: &f64| fesolopi::square_root(d).map(f64::to_bits) == Some(d.sqrt().to_bits());
        assert!(arguments.iter().all(same), "{}: the roots differ", kind.name);
        let port = nanoseconds(&arguments, fesolopi::square_root);
        let processor = nanoseconds(&arguments, f64::sqrt);
        row(&[kind.name, &format!("{port:.1}"), &format!("{processor:.1}")]);
    }
}
