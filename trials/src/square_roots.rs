// Square roots: the compiled call against the processor's square root, bit for bit.
use crate::calls;
use crate::lent::Lent;
use oracle::model::plan::root;
use oracle::random::Random;
use oracle::report::{head, parted, row};
use oracle::root_arguments::kinds;
use std::time::{Duration, Instant};

/// So many arguments of one kind in a row.
const BLOCK: u64 = 1 << 14;

/// After so many differences there is no need for more.
const ENOUGH: u64 = 10;

/// Nothing, or how an answer differs from the processor's root, or from 5 and +0 where there is none.
pub fn right(d: f64, told: (u64, f64)) -> Result<(), String> {
    let expected = root(d).map_or_else(|number| (number, 0.), |found| (0, found));
    if (told.0, told.1.to_bits()) == (expected.0, expected.1.to_bits()) {
        Ok(())
    } else {
        Err(format!("square root of {d:?} ({:016X}): {told:?}, not {expected:?}", d.to_bits()))
    }
}

/// Compares for so many seconds; says if nothing differed.
pub fn square_roots(seconds: u64, seed: u64) -> bool {
    let (mut random, mut lent) = (Random(seed), Lent::default());
    let mut counts: Vec<_> = kinds().map(|kind| (kind, 0)).collect();
    let mut differ = 0;
    let end = Instant::now() + Duration::from_secs(seconds);
    while Instant::now() < end && differ < ENOUGH {
        for (kind, count) in &mut counts {
            for _ in 0..BLOCK {
                let d = (kind.draw)(&mut random);
                if let Err(what) = right(d, calls::square_root(&mut lent, d)) {
                    println!("DIFFERS: {what}");
                    differ += 1;
                }
            }
            *count += BLOCK;
        }
    }
    println!("seed {seed}, {seconds} seconds");
    head(&["Arguments", "How many"]);
    for (kind, count) in &counts {
        row(&[kind.name, &parted(*count)]);
    }
    row(&["all", &parted(counts.iter().map(|(_, count)| count).sum())]);
    println!("differences: {differ}");
    differ == 0
}
