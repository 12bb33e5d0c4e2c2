// The differential runs: starts one after another until the time is over, and the smallest reproduction of
// a mismatch.
use crate::figures::Figures;
use crate::starts::{extreme_starts, trial_start};
use crate::walk::{follow, Fault, Ground};
use oracle::crafted::known_starts;
use oracle::random::Random;
use oracle::text::Start;
use std::time::{Duration, Instant};

/// Compares for so many seconds; says if nothing differed.
pub fn differential(seconds: u64, seed: u64) -> bool {
    let (mut random, mut figures, mut ground) = (Random(seed), Figures::default(), Ground::default());
    let end = Instant::now() + Duration::from_secs(seconds);
    for start in known_starts().into_iter().chain(extreme_starts(&mut random)) {
        tried(&start, random.bits(), &mut ground, &mut figures);
    }
    while Instant::now() < end && figures.mismatches == 0 {
        let start = trial_start(&mut random);
        tried(&start, random.bits(), &mut ground, &mut figures);
    }
    println!("seed {seed}, {seconds} seconds");
    figures.print();
    figures.mismatches == 0
}

/// Follows one start, as a mismatch printed it; says if nothing differed.
pub fn again(text: &str, walk: u64) -> Result<bool, String> {
    let mut figures = Figures::default();
    tried(&Start::read(text)?, walk, &mut Ground::default(), &mut figures);
    figures.print();
    Ok(figures.mismatches == 0)
}

fn tried(start: &Start, walk: u64, ground: &mut Ground, figures: &mut Figures) {
    if let Err(fault) = follow(start, walk, ground, figures, &mut |_, _| ()) {
        figures.mismatches += 1;
        let (small, fault) = smallest(start, fault, |less| {
            follow(less, walk, ground, &mut Figures::default(), &mut |_, _| ()).err()
        });
        println!("MISMATCH after event {}: {}", fault.events, fault.what);
        println!("trials again {walk}, with the start");
        print!("{}", small.write());
    }
}

/// Takes grains out, many at first, as long as there is still a fault.
pub fn smallest(
    start: &Start,
    fault: Fault,
    mut fails: impl FnMut(&Start) -> Option<Fault>,
) -> (Start, Fault) {
    let (mut start, mut fault) = (start.clone(), fault);
    let mut many = start.grains.len();
    while many > 0 {
        let mut from = 0;
        while from < start.grains.len() {
            let mut less = start.clone();
            less.grains.drain(from..(from + many).min(less.grains.len()));
            match fails(&less) {
                Some(still) => (start, fault) = (less, still),
                None => from += many,
            }
        }
        many /= 2;
    }
    (start, fault)
}
