//! How many small grains fit: of each number of grains, 300 random starts in which none overlaps another, in
//! the smallest box, each followed for 10 units of time. A cell lists 32 grains, and a 33rd is refused by 7.
//!
//!     cargo run --release --offline --example crowded
mod packing;
// the oracle's generator, of which this needs a part
#[allow(dead_code)]
#[path = "../../../oracle/src/random.rs"]
mod random;
use packing::Packing;
use random::Random;

const SEED: u64 = 1;
const STARTS: usize = 300;
const COUNTS: [usize; 7] = [120, 140, 150, 160, 170, 180, 200];

fn main() {
    let packing = |grains| Packing { grains, radius: 0.25, length: 9., room: 256, end: 10. };
    let Packing { radius, length, end, .. } = packing(0);
    println!("radius {radius} in a periodic box, {length} by {length}, until time {end}; seed {SEED}\n");
    println!("| Grains | Starts | Halted by 7 at the start | Halted by 7 | By another number |");
    println!("|---|---|---|---|---|");
    for grains in COUNTS {
        let (packing, mut random) = (packing(grains), Random(SEED));
        let (mut at_start, mut by_7, mut other) = (0, 0, 0);
        for _ in 0..STARTS {
            let start = packing.drawn(&mut random, |random| random.between(0., length));
            match packing.halt(&start) {
                Some((7, clock)) => {
                    by_7 += 1;
                    at_start += u64::from(clock == 0.);
                }
                Some(_) => other += 1,
                None => {}
            }
        }
        println!("| {grains} | {STARTS} | {at_start} | {by_7} | {other} |");
    }
}
