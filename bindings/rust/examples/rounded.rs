//! How often round start positions halt a run: of each kind of position, 300 random starts in which no grain
//! overlaps another, each followed for 50 units of time.
//!
//! A start is on a border if some coordinate of a grain is exactly a radius away from a border of a cell.
//!
//!     cargo run --release --offline --example rounded
use fesolopi::Grain;

mod packing;
// the oracle's generator, of which this needs a part
#[allow(dead_code)]
#[path = "../../../oracle/src/random.rs"]
mod random;
use packing::Packing;
use random::Random;

const SEED: u64 = 1;
const STARTS: usize = 300;
/// The length of a cell in this box.
const CELL: f64 = 3.;
const RADIUS: f64 = 0.5;
/// With room enough that no cell is full of events.
const PACKING: Packing = Packing { grains: 200, radius: RADIUS, length: 24., room: 128, end: 50. };

/// A kind of position. Each coordinate is a whole number divided by `scale`, or any float, and up to `jitter`
/// more or less than that.
struct Kind {
    name: &'static str,
    scale: Option<f64>,
    jitter: f64,
}

const KINDS: [Kind; 6] = [
    Kind { name: "1 decimal", scale: Some(10.), jitter: 0. },
    Kind { name: "2 decimals", scale: Some(100.), jitter: 0. },
    Kind { name: "3 decimals", scale: Some(1_000.), jitter: 0. },
    Kind { name: "4 decimals", scale: Some(10_000.), jitter: 0. },
    Kind { name: "full floats", scale: None, jitter: 0. },
    Kind { name: "1 decimal, jitter 0.001", scale: Some(10.), jitter: 0.001 },
];

fn coordinate(kind: &Kind, random: &mut Random) -> f64 {
    let any = random.between(0., PACKING.length);
    let rounded = kind.scale.map_or(any, |scale| (any * scale).round() / scale);
    rounded + random.between(-kind.jitter, kind.jitter)
}

fn on_a_border(grains: &[Grain]) -> bool {
    grains.iter().flat_map(|grain| grain.position).any(|x| [RADIUS, CELL - RADIUS].contains(&(x % CELL)))
}

/// Does the starts of a kind, and prints their row of the table.
fn measure(kind: &Kind) {
    let mut random = Random(SEED);
    let (mut halts, mut border, mut border_halted) = (vec![], 0, 0);
    for _ in 0..STARTS {
        let grains = PACKING.drawn(&mut random, |random| coordinate(kind, random));
        let (on_a_border, halt) = (on_a_border(&grains), PACKING.halt(&grains));
        border += u64::from(on_a_border);
        border_halted += u64::from(on_a_border && halt.is_some());
        halts.extend(halt);
    }
    halts.sort_by(|a, b| a.1.total_cmp(&b.1));
    let all = halts.len();
    let median = halts.get(all / 2).map_or("-".into(), |(_, time)| format!("{time:.2}"));
    let [by_8, by_9] = [8, 9].map(|number| halts.iter().filter(|halt| halt.0 == number).count());
    let other = all - by_8 - by_9;
    let name = kind.name;
    println!(
        "| {name} | {STARTS} | {all} | {by_8} | {by_9} | {other} | {median} | {border} | {border_halted} |"
    );
}

fn main() {
    let Packing { grains, length, end, .. } = PACKING;
    println!("{grains} grains in a periodic box, {length} by {length}, until time {end}; seed {SEED}\n");
    println!(
        "| Positions | Starts | Halted | By 8 | By 9 | Other | Median time | On a border | Of these halted |"
    );
    println!("|---|---|---|---|---|---|---|---|---|");
    KINDS.iter().for_each(measure);
}
