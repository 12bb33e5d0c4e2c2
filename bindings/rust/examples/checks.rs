//! What the checks of a run cost at the largest tables: the time of a run with budget 0, as a table.
//!
//!     cargo run --release --offline --example checks
use fesolopi::tables::{FLOATS, HEAP, HOMES, LISTS_HEAD, MEMBERS, NUMBERS};
use fesolopi::{Domain, Ending, Grain, Simulation, Tables};
use std::time::Instant;

const GRAINS: usize = 256;
const CELLS: usize = 256;
const ROOM: usize = 256;

/// The largest box, 16 by 16 grains that touch no other, spread over all cells.
fn largest() -> Simulation {
    let grain = |n: usize| {
        let position = [1.3137 + 2.913 * (n % 16) as f64, 1.4171 + 2.917 * (n / 16) as f64];
        let velocity = [0.37 - 0.011 * (n % 61) as f64, 0.29 - 0.013 * (n % 47) as f64];
        Grain { position, velocity, value: 0.5, rad: 0.5 }
    };
    let grains: Vec<Grain> = (0..GRAINS).map(grain).collect();
    let domain = Domain { lengths: [48., 48.], periodic: [true, true] };
    Simulation::start(&domain, ROOM as u64, &grains).expect("an accepted start")
}

/// The same with every grain in eight cells, `wide` grains in each cell that lists any, and every event place
/// of those cells in use: collisions of the two grains listed last, and one synchronisation in cell 0.
fn full(wide: usize) -> Simulation {
    let mut t: Tables = largest().into_tables();
    let groups = GRAINS / wide;
    t.lists[LISTS_HEAD..].fill(0);
    t.queue.fill(0);
    for grain in 0..GRAINS {
        let cells = (0..HOMES).map(|n| (grain / wide + groups * n) as u64);
        fill(&mut t.lists, LISTS_HEAD + (1 + HOMES) * grain, cells);
    }
    for cell in 0..groups * HOMES {
        let first = cell % groups * wide;
        let last = (first + wide - 1) as u64;
        let grains = (first..first + wide).map(|n| n as u64);
        fill(&mut t.lists, LISTS_HEAD + (1 + HOMES) * GRAINS + (1 + MEMBERS) * cell, grains);
        let queue = (1 + NUMBERS * ROOM) * cell;
        t.queue[queue] = ROOM as u64;
        for place in 0..ROOM {
            let synchronisation = cell == 0 && place == 0;
            let numbers = if synchronisation { [5, 0, 0, 0] } else { [1, last - 1, last, 0] };
            t.queue[queue + 1 + NUMBERS * place..][..NUMBERS].copy_from_slice(&numbers);
            t.events[FLOATS * (ROOM * cell + place)..][..FLOATS].fill(1.);
        }
    }
    for n in 0..CELLS {
        (t.order[n], t.order[HEAP + n]) = (n as u8, n as u8);
    }
    Simulation::from_tables(t)
}

/// A row of the lists: its count, then its items.
fn fill(lists: &mut [u64], base: usize, items: impl ExactSizeIterator<Item = u64>) {
    lists[base] = items.len() as u64;
    for (place, item) in lists[base + 1..].iter_mut().zip(items) {
        *place = item;
    }
}

fn measure(name: &str, mut simulation: Simulation) {
    let events: usize = (0..simulation.cells()).map(|c| simulation.pending(c).count()).sum();
    let listed: usize = (0..simulation.count()).map(|g| simulation.cells_of(g).len()).sum();
    let mut times: Vec<f64> = Vec::new();
    for _ in 0..200 {
        let begun = Instant::now();
        let report = simulation.run(1., 0).expect("sound tables");
        times.push(begun.elapsed().as_secs_f64() * 1e6);
        assert_eq!((report.ending, report.events), (Ending::Spent, 0));
    }
    times.sort_by(f64::total_cmp);
    println!("| {name} | {listed} | {events} | {:.0} | {:.0} |", times[0], times[times.len() / 2]);
}

fn main() {
    println!("| Tables | Entries in lists | Events | Microseconds, least of 200 | median |");
    println!("|---|---|---|---|---|");
    measure("a start", largest());
    let mut run = largest();
    for _ in 0..20 {
        run.run(1., 1_000_000).expect("a run that does not halt");
    }
    measure("after 20 synchronisations", run);
    measure("made so that every event place is in use", full(8));
    measure("made so that 64 cells list 32 grains each", full(32));
}
