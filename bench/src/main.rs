// How many events a second the published Rust and the port do, on the same inputs, in turns, by processor time; and the swaps of the port's heap
// updates. With the word `root`: how long one square root takes. With the name of a row: the port's rounds of it alone, for a profiler.
mod root;
mod rows;
mod swaps;

use fesolopi::tables::GRAINS_HEAD;
use fesolopi::{Domain, Ending, Grain, Simulation};
use oracle::model::state::{Grain as Stored, Inputs};
use oracle::rust::{AsPublished, Published};
use oracle::text::Start;
use rows::{Row, ROWS};

const ROUNDS: usize = 7;

#[repr(C)]
struct Timespec {
    seconds: i64,
    nanoseconds: i64,
}

extern "C" {
    fn clock_gettime(clock: i32, time: &mut Timespec) -> i32;
}

/// Processor time of this process, in seconds.
fn processor_time() -> f64 {
    const CLOCK_PROCESS_CPUTIME_ID: i32 = 2;
    let mut now = Timespec { seconds: 0, nanoseconds: 0 };
    // SAFETY: the record is C's struct timespec of 64-bit Linux.
    assert_eq!(unsafe { clock_gettime(CLOCK_PROCESS_CPUTIME_ID, &mut now) }, 0);
    now.seconds as f64 + now.nanoseconds as f64 * 1e-9
}

/// The time that something takes.
fn timed(work: impl FnOnce()) -> f64 {
    let before = processor_time();
    work();
    processor_time() - before
}

/// One round of the port: its time, the events that it did, and how it ends.
fn port_round(row: &Row, start: &Start) -> (f64, u64, Simulation) {
    let grain =
        |&[x, y, vx, vy, value, rad]: &Inputs| Grain { position: [x, y], velocity: [vx, vy], value, rad };
    let grains: Vec<Grain> = start.grains.iter().map(grain).collect();
    let domain = Domain { lengths: start.lengths, periodic: start.periodic };
    let mut port = Simulation::start(&domain, start.room, &grains).expect("the start is accepted");
    let mut events = 0;
    let time = timed(|| {
        for _ in 0..row.runs {
            let report = port.run(start.rate, u32::MAX).expect("the run is not halted");
            assert_eq!(report.ending, Ending::Synchronised);
            events += report.events;
        }
    });
    (time, events, port)
}

/// One round of the published Rust, of as many events: its time, and how it ends.
fn rust_round(start: &Start, events: u64) -> (f64, AsPublished) {
    let mut rust = AsPublished::start(start);
    let time = timed(|| (0..events).for_each(|_| rust.step(start.rate)));
    (time, rust)
}

/// Whether the port holds these grains, bit for bit.
fn same(grains: &[Stored], port: &Simulation) -> bool {
    let floats = grains.iter().flat_map(Stored::floats);
    floats.map(f64::to_bits).eq(port.tables().grains[GRAINS_HEAD..].iter().map(|x| x.to_bits()))
}

/// Seconds that a run of a given budget takes, on the tables that a round leaves.
fn short_run(port: &mut Simulation, budget: u32) -> f64 {
    const TIMES: u32 = 500;
    let work = || (0..TIMES).for_each(|_| assert!(port.run(1., budget).is_ok(), "the run is not halted"));
    timed(work) / f64::from(TIMES)
}

/// Bytes of the five tables.
fn memory(port: &Simulation) -> usize {
    let t = port.tables();
    8 * (t.lists.len() + t.grains.len() + t.queue.len() + t.events.len()) + t.order.len()
}

fn main() {
    match std::env::args().nth(1).as_deref() {
        Some("root") => root::table(),
        Some(name) => alone(name),
        None => table(),
    }
}

fn alone(name: &str) {
    let row = ROWS.iter().find(|row| row.name == name).expect("a row of the table");
    let start = row.start();
    (0..ROUNDS).for_each(|_| drop(port_round(row, &start)));
}

fn table() {
    println!(
        "| Box | Grains | Room | Tables, kB | Events | Rust, M/s | Port, M/s | Port / Rust | Checks of a run, µs | Port / Rust, one event a run \
         | log2(cells), whole part | Swaps of an update, mean | Swaps of an update, largest |"
    );
    println!("|---|---|---|---|---|---|---|---|---|---|---|---|---|");
    for row in &ROWS {
        let start = row.start();
        let (swaps, model) = swaps::counted(&start, row.runs);
        let (mut rust, mut port, mut none, mut one) = (f64::MAX, f64::MAX, f64::MAX, f64::MAX);
        let (mut events, mut bytes) = (0, 0);
        for _ in 0..ROUNDS {
            let (time, done, mut ended) = port_round(row, &start);
            port = port.min(time);
            let (time, theirs) = rust_round(&start, done);
            rust = rust.min(time);
            let alike = same(&theirs.picture().grains, &ended) && same(&model.grains, &ended);
            assert!(alike, "{}: the grains differ at the end", row.name);
            none = none.min(short_run(&mut ended, 0));
            one = one.min(short_run(&mut ended, 1));
            (events, bytes) = (done, memory(&ended));
        }
        let each = |time: f64| time / events as f64;
        println!(
            "| {} | {} | {} | {} | {} | {:.2} | {:.2} | {:.2} | {:.1} | {:.3} | {} | {:.2} | {} |",
            row.name,
            row.grains,
            row.room,
            bytes / 1000,
            events,
            1e-6 / each(rust),
            1e-6 / each(port),
            rust / port,
            none * 1e6,
            each(rust) / one,
            model.queues.len().ilog2(),
            swaps.mean(),
            swaps.most,
        );
    }
}
