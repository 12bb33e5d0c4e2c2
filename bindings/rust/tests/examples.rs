//! The rules' marked examples, as far as a simulation shows them.
use fesolopi::{square_root, Domain, Ending, Error, Event, Grain, Pending, Simulation};

fn grain(x: f64, y: f64, vx: f64, vy: f64) -> Grain {
    Grain { position: [x, y], velocity: [vx, vy], value: 0.5, rad: 0.5 }
}

fn started(periodic: [bool; 2], grains: &[Grain]) -> Simulation {
    let simulation = Simulation::start(&Domain { lengths: [9., 9.], periodic }, 64, grains).unwrap();
    assert_eq!(simulation.halted(), None);
    simulation
}

#[test]
fn cells_of_a_box() {
    let cells = |length| {
        let domain = Domain { lengths: [length, 9.], periodic: [true; 2] };
        Simulation::start(&domain, 16, &[]).map(|s| s.cells() / 3)
    };
    assert_eq!(cells(9.), Ok(3));
    assert_eq!(cells(12.), Ok(4));
    assert_eq!(cells(48.), Ok(16));
    assert_eq!(cells(8.5), Err(Error::Length));
    assert_eq!(cells(48.5), Err(Error::Length));
}

#[test]
fn cells_that_a_grain_touches() {
    let periodic = started([true; 2], &[grain(0.25, 4.5, 0., 0.), grain(2.5, 4.5, 0., 0.)]);
    assert_eq!(periodic.cells_of(0), [3, 5]);
    assert_eq!(periodic.cells_of(1), [3, 4]);
    assert_eq!(
        [periodic.grains_of(3), periodic.grains_of(4), periodic.grains_of(5)],
        [&[0, 1][..], &[1], &[0]]
    );
}

/// The times of the centre cell's collisions, where q lies at `apart` from p and comes nearer by `speed`.
fn collisions(apart: [f64; 2], speed: f64) -> Vec<f64> {
    let (x, y) = (4.5 - apart[0] / 2., 4.5 - apart[1] / 2.);
    let simulation = started([true; 2], &[grain(x, y, speed, 0.), grain(x + apart[0], y + apart[1], 0., 0.)]);
    let collision = |p: &Pending| matches!(p.event, Event::Collision { .. });
    simulation.pending(4).filter(collision).map(|p| p.time).collect()
}

#[test]
fn collisions_of_two_grains() {
    assert_eq!(collisions([3., 0.], 2.), [1.]);
    assert_eq!(collisions([3., 1.], 1.), [3.]);
    assert_eq!(collisions([3., 1.5], 1.), []);
    assert_eq!(collisions([1., 0.], 2.), [0.]);
}

#[test]
fn collisions_at_the_least_speed() {
    // by hand: a 2^-52, b -3·2^-26, c 8, d 2^-52, so dt 2^52·(3·2^-26 - 2^-26)
    assert_eq!(collisions([3., 0.], 2f64.powi(-26)), [2f64.powi(27)]);
    assert_eq!(collisions([3., 0.], 2f64.powi(-27)), []);
}

#[test]
fn a_collision_carries_both_grains() {
    let two =
        [Grain { value: 0.25, ..grain(3., 4.5, 2., 0.) }, Grain { value: 1., ..grain(6., 4.5, 0., 0.) }];
    let simulation = started([true; 2], &two);
    let Some(Pending { time, event: Event::Collision { grains, positions, value, .. } }) =
        simulation.pending(4).next()
    else {
        panic!("the collision is the first event of the centre cell")
    };
    assert_eq!((time, grains, positions, value), (1., [0, 1], [[5., 4.5], [6., 4.5]], 0.625));
}

#[test]
fn smaller_grains_meet_later_and_keep_their_radii() {
    // 0.25 and 0.5 from 3 apart: 2.25 of the way at speed 1
    let two = [Grain { rad: 0.25, ..grain(3., 4.5, 1., 0.) }, grain(6., 4.5, 0., 0.)];
    let mut simulation = started([true; 2], &two);
    let meets = |p: &Pending| matches!(p.event, Event::Collision { .. });
    assert_eq!(simulation.pending(4).find(meets).map(|p| p.time), Some(2.25));
    for _ in 0..5 {
        simulation.run(1., 100).unwrap();
    }
    let radii: Vec<f64> = simulation.grains().map(|g| g.rad).collect();
    assert_eq!(radii, [0.25, 0.5]);
    assert!(simulation.grains().all(|g| g.velocity[0] != 1.));
}

#[test]
fn moves_to_a_neighbour_and_out() {
    let simulation = started([true; 2], &[grain(4.5, 4.5, 1., 0.)]);
    let events: Vec<Pending> = simulation.pending(4).collect();
    let enters = Pending { time: 1., event: Event::ToNeighbour { grain: 0, cell: 5, position: [5.5, 4.5] } };
    let leaves = Pending { time: 2., event: Event::OutOfCell { grain: 0, cell: 4, position: [6.5, 4.5] } };
    assert_eq!(events, [enters, leaves]);
}

#[test]
fn an_empty_cell_has_no_head_time() {
    let mut simulation = started([true; 2], &[grain(4.5, 4.5, 1., 0.)]);
    let heads = |s: &Simulation| (0..=s.cells()).map(|cell| s.head_time(cell)).collect::<Vec<_>>();
    // cell 0 holds the synchronisation, the centre cell what the grain does next; 9 is past the cells
    let mut expected = vec![None; 10];
    (expected[0], expected[4]) = (Some(0.), Some(1.));
    assert_eq!(heads(&simulation), expected);
    // three synchronisations later it is 1.5, and the grain is in cell 5 too
    (0..3).for_each(|_| assert!(simulation.run(0.75, 10).is_ok()));
    (expected[0], expected[4], expected[5]) = (Some(2.25), Some(2.), Some(4.));
    assert_eq!(heads(&simulation), expected);
    // at time 2 it leaves the centre cell, which is empty again
    simulation.run(0.75, 10).unwrap();
    (expected[0], expected[4]) = (Some(3.), None);
    assert_eq!(heads(&simulation), expected);
}

#[test]
fn a_wall_reflects() {
    let walls = |x| started([false; 2], &[grain(x, 4.5, 1., 0.)]).pending(5).collect::<Vec<_>>();
    // the high wall's value is 1, so the new one is 0.75
    let event = Event::Wall { grain: 0, position: [8.5, 4.5], velocity: [-1., 0.], value: 0.75 };
    assert_eq!(walls(7.5), [Pending { time: 1., event }]);
    assert_eq!(walls(8.5), []);
    // a grain of radius 0.25 comes nearer
    let smaller = started([false; 2], &[Grain { rad: 0.25, ..grain(7.5, 4.5, 1., 0.) }]);
    let event = Event::Wall { grain: 0, position: [8.75, 4.5], velocity: [-1., 0.], value: 0.75 };
    assert_eq!(smaller.pending(5).collect::<Vec<_>>(), [Pending { time: 1.25, event }]);
}

#[test]
fn the_first_synchronisation_is_at_zero_and_the_next_a_rate_later() {
    let mut simulation = started([true; 2], &[grain(4.5, 4.5, 0., 0.)]);
    assert_eq!(
        simulation.pending(0).collect::<Vec<_>>(),
        [Pending { time: 0., event: Event::Synchronisation }]
    );
    for (rate, clock) in [(0.75, 0.), (0.5, 0.75), (1., 1.25)] {
        let report = simulation.run(rate, 10).unwrap();
        assert_eq!((report.ending, report.clock, report.events), (Ending::Synchronised, clock, 1));
        assert_eq!((simulation.clock(), simulation.time(0)), (clock, Some(clock)));
    }
}

/// A line is a float's bits and those of its root, a NaN's where there is none.
#[test]
fn square_roots_of_a_second_program() {
    let text = std::fs::read_to_string("../../crates/roots/stdin").unwrap();
    let float = |digits: &str| f64::from_bits(u64::from_str_radix(digits, 16).unwrap());
    let mut compared = 0;
    for line in text.lines() {
        let (d, told) = line.split_once(' ').unwrap();
        let root = square_root(float(d)).map(f64::to_bits);
        assert_eq!(root, Some(float(told)).filter(|x| !x.is_nan()).map(f64::to_bits), "{line}");
        compared += 1;
    }
    assert!(compared > 6000, "{compared}");
}
