//! Grains that a cell lists and that no pending event names. From this start they fly straight on, and no run is
//! refused.
//!
//! Grain 0 touches the border of its only cell from inside, so no event takes it into the cell beside. Grain 1
//! hits it at the moment when it leaves that cell. The collision drops its old events, and where it now stands
//! there is no way left to plan, in or out. Grain 1 touches a border itself at that moment, and is later listed
//! by one cell alone, which it left long before.
//!
//! Does 1,000 events one at a time, and tells which moving grains no event names, at the start and whenever
//! they are others. Fails if there are never any.
//!
//!     cargo run --release --offline --example straight
use fesolopi::{Domain, Error, Event, Grain, Simulation};
use std::process::ExitCode;

const EVENTS: u64 = 1_000;

fn begun() -> Result<Simulation, Error> {
    let domain = Domain { lengths: [9., 9.], periodic: [true, true] };
    let grain = |x: f64, vx: f64| Grain { position: [x, 4.5], velocity: [vx, 0.], value: 0.5, rad: 0.5 };
    Simulation::start(&domain, 64, &[grain(3.5, -1.), grain(5.5, -2.)])
}

/// The grains that an event names.
fn named(event: Event) -> Vec<u64> {
    match event {
        Event::Collision { grains, .. } => grains.to_vec(),
        Event::ToNeighbour { grain, .. } | Event::OutOfCell { grain, .. } | Event::Wall { grain, .. } => {
            vec![grain]
        }
        Event::Synchronisation | Event::Unknown { .. } => vec![],
    }
}

/// The moving grains that no pending event of any cell names.
fn unwatched(simulation: &Simulation) -> Vec<u64> {
    let pending = (0..simulation.cells()).flat_map(|cell| simulation.pending(cell));
    let watched: Vec<u64> = pending.flat_map(|p| named(p.event)).collect();
    let moving = |&n: &u64| simulation.grain(n).is_some_and(|grain| grain.velocity != [0., 0.]);
    (0..simulation.count()).filter(moving).filter(|n| !watched.contains(n)).collect()
}

/// Grains, each with the cells that list it.
fn with_cells(simulation: &Simulation, grains: &[u64]) -> String {
    if grains.is_empty() {
        return "none".into();
    }
    let one = |&n: &u64| format!("grain {n} (listed by cells {:?})", simulation.cells_of(n));
    grains.iter().map(one).collect::<Vec<_>>().join(", ")
}

/// Tells the unwatched grains if they are others than those told last.
fn tell(simulation: &Simulation, done: u64, told: &mut Vec<Vec<u64>>) {
    let grains = unwatched(simulation);
    if told.last() != Some(&grains) {
        println!("{done} events, clock {}: {}", simulation.clock(), with_cells(simulation, &grains));
        told.push(grains);
    }
}

fn main() -> ExitCode {
    let mut simulation = begun().expect("an accepted start");
    let (mut done, mut refusal, mut told) = (0, None, vec![]);
    tell(&simulation, done, &mut told);
    while done < EVENTS && refusal.is_none() {
        match simulation.run(1., 1) {
            Ok(report) => {
                done += report.events;
                tell(&simulation, done, &mut told);
            }
            Err(error) => refusal = Some(error),
        }
    }
    let refused = refusal.map_or("nothing refused".into(), |error| error.to_string());
    println!("{done} events done, clock {}, {refused}", simulation.clock());
    if told.iter().all(Vec::is_empty) {
        eprintln!("every moving grain was named by an event, all the way");
        return ExitCode::FAILURE;
    }
    ExitCode::SUCCESS
}
