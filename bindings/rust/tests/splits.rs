//! A run of j + k events answers and leaves the same as a run of j followed by one of k.
use fesolopi::{Domain, Ending, Error, Grain, Report, Simulation};

/// Twelve grains of three sizes that meet each other and the walls.
fn crowd() -> Simulation {
    let grain = |n: i32| {
        let (x, y) = (f64::from(n % 4), f64::from(n / 4));
        let velocity = [0.37 - 0.11 * f64::from(n), 0.05 * f64::from(n) - 0.2];
        let rad = [0.5, 0.35, 0.25][n as usize % 3];
        Grain { position: [1.3 + 1.9 * x, 2.1 + 2.3 * y], velocity, value: f64::from(n) / 12., rad }
    };
    let grains: Vec<Grain> = (0..12).map(grain).collect();
    let domain = Domain { lengths: [10.25, 9.5], periodic: [true, false] };
    Simulation::start(&domain, 128, &grains).unwrap()
}

/// A run of j, and, if that one spent its budget, a run of k; counts added.
fn in_two(simulation: &mut Simulation, rate: f64, j: u32, k: u32) -> Result<Report, Error> {
    let first = simulation.run(rate, j)?;
    if first.ending == Ending::Synchronised {
        return Ok(first);
    }
    match simulation.run(rate, k) {
        Ok(second) => Ok(Report { events: first.events + second.events, ..second }),
        Err(Error::Halted { by, clock, events }) => {
            Err(Error::Halted { by, clock, events: first.events + events })
        }
        refused => refused,
    }
}

#[test]
fn two_runs_are_one() {
    let mut simulation = crowd();
    let (mut events, mut synchronised) = (0, 0);
    for n in 0..200 {
        let (rate, j, k) = (0.25 + f64::from(n % 3), n % 7, n * n % 11);
        let mut split = simulation.clone();
        let whole = simulation.run(rate, j + k);
        assert_eq!(in_two(&mut split, rate, j, k), whole);
        assert_eq!(simulation, split);
        let report = whole.unwrap();
        events += report.events;
        synchronised += u32::from(report.ending == Ending::Synchronised);
    }
    // there was something to split
    assert!(events > 500 && synchronised > 10, "{events} {synchronised}");
}

#[test]
fn a_budget_of_none_does_nothing() {
    let mut simulation = crowd();
    simulation.run(1., 1).unwrap();
    simulation.run(1., 5).unwrap();
    let before = simulation.clone();
    let report = simulation.run(1., 0).unwrap();
    assert_eq!((report.ending, report.clock, report.events), (Ending::Spent, before.clock(), 0));
    assert_eq!(simulation, before);
}

#[test]
fn a_split_run_halts_where_the_whole_one_does() {
    let domain = Domain { lengths: [9., 9.], periodic: [true; 2] };
    let corner = Grain { position: [4.5, 4.5], velocity: [1., 1.], value: 0.5, rad: 0.5 };
    let mut simulation = Simulation::start(&domain, 64, &[corner]).unwrap();
    // at a rate of 100 no synchronisation but the first comes before the halt
    simulation.run(100., 1).unwrap();
    for j in 0..10 {
        let (mut whole, mut split) = (simulation.clone(), simulation.clone());
        assert_eq!(in_two(&mut split, 100., j, 20), whole.run(100., j + 20));
        assert_eq!(whole, split);
        assert!(whole.halted().is_some());
    }
}
