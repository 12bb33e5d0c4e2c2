//! Every refusal, by the smallest inputs known for it, and what it leaves.
use fesolopi::{Domain, Ending, Error, Grain, Halt, Simulation};

const BOX: Domain = Domain { lengths: [9., 9.], periodic: [true; 2] };

fn grain(x: f64, y: f64, vx: f64, vy: f64) -> Grain {
    Grain { position: [x, y], velocity: [vx, vy], value: 0.5, rad: 0.5 }
}

/// A grain in the middle of the centre cell, at rest.
fn still() -> Grain {
    grain(4.5, 4.5, 0., 0.)
}

fn refused(domain: &Domain, room: u64, grains: &[Grain]) -> Error {
    Simulation::start(domain, room, grains).expect_err("refused")
}

#[test]
fn one_a_length_out_of_range() {
    for bad in [8.5, 48.5, 9f64.next_down(), 48f64.next_up(), -9., 0., f64::INFINITY, f64::NAN] {
        for lengths in [[bad, 9.], [48., bad]] {
            assert_eq!(refused(&Domain { lengths, ..BOX }, 64, &[]), Error::Length);
        }
    }
    // 1 comes before 2
    assert_eq!(refused(&Domain { lengths: [8.5, 9.], ..BOX }, 15, &[]), Error::Length);
}

#[test]
fn two_a_count_out_of_range() {
    for room in [0, 15, 257, u64::MAX] {
        assert_eq!(refused(&BOX, room, &[]), Error::Count);
    }
    assert_eq!(refused(&BOX, 64, &[still(); 257]), Error::Count);
    // 2 comes before 4
    assert_eq!(refused(&BOX, 15, &[grain(-1., 4.5, 0., 0.)]), Error::Count);
}

#[test]
fn three_a_rate_out_of_range() {
    let mut simulation = Simulation::start(&BOX, 64, &[still()]).unwrap();
    let before = simulation.clone();
    for rate in [2f64.powi(-21), 2f64.powi(-20).next_down(), 2f64.powi(20).next_up(), 0., -1., f64::NAN] {
        assert_eq!(simulation.run(rate, 5), Err(Error::Rate));
        assert_eq!(simulation, before);
    }
    for rate in [2f64.powi(-20), 2f64.powi(20)] {
        assert_eq!(simulation.run(rate, 1).map(|r| r.ending), Ok(Ending::Synchronised));
    }
}

#[test]
fn four_names_the_lowest_bad_grain() {
    let bad = [
        grain(9.5, 4.5, 0., 0.),
        grain(4.5, -0.25, 0., 0.),
        grain(4.5, 4.5, 1024.5, 0.),
        grain(4.5, 4.5, 0., f64::NAN),
        Grain { value: 1.5, ..still() },
        Grain { value: f64::NAN, ..still() },
        Grain { rad: 0.25f64.next_down(), ..still() },
        Grain { rad: 0.5f64.next_up(), ..still() },
        Grain { rad: f64::NAN, ..still() },
        Grain { rad: f64::INFINITY, ..still() },
        Grain { rad: -0.5, ..still() },
    ];
    for wrong in bad {
        assert_eq!(refused(&BOX, 64, &[still(), still(), wrong, wrong]), Error::Grain { lowest: 2 });
    }
    // its radius from a wall is the nearest
    let walls = Domain { periodic: [false, true], ..BOX };
    assert_eq!(refused(&walls, 64, &[grain(0.25, 0.25, 0., 0.)]), Error::Grain { lowest: 0 });
    assert!(Simulation::start(&walls, 64, &[grain(0.5, 0.25, 0., 0.)]).is_ok());
    let smaller = |x: f64| Simulation::start(&walls, 64, &[Grain { rad: 0.3, ..grain(x, 0.25, 0., 0.) }]);
    for inside in [0.3f64, 9. - 0.3] {
        assert!(smaller(inside).is_ok());
    }
    for outside in [0.29, 0.3f64.next_down(), (9f64 - 0.3).next_up()] {
        assert_eq!(smaller(outside), Err(Error::Grain { lowest: 0 }));
    }
}

#[test]
fn a_radius_at_an_end_is_accepted() {
    for rad in [0.25, 0.5] {
        assert!(Simulation::start(&BOX, 64, &[Grain { rad, ..still() }]).is_ok());
    }
}

#[test]
fn starts_that_halt() {
    let least = f64::from_bits(1);
    let late = grain(0.5 - 2f64.powi(-53), 4.5, -f64::from_bits(1 << 50), 0.);
    let cases: [(Halt, u64, Vec<Grain>); 4] = [
        (Halt::NotFinite, 64, vec![grain(4.5, 4.5, least, 0.)]),
        (Halt::NotFinite, 64, vec![late]),
        (Halt::EventsFull, 16, vec![grain(1.5, 1.5, 1., 0.5); 4]),
        (Halt::ListFull, 64, vec![still(); 33]),
    ];
    for (by, room, grains) in cases {
        let mut simulation = Simulation::start(&BOX, room, &grains).unwrap();
        assert_eq!(simulation.halted(), Some(by));
        again(&mut simulation, by);
    }
}

#[test]
fn runs_that_halt() {
    let mut visited = vec![still(); 32];
    visited.push(grain(1., 4.5, 1., 0.));
    let four = vec![
        grain(3.7, 3.9, 0.99, 0.65),
        grain(4.2, 5.7, -0.24, -0.38),
        grain(2.3, 2.2, 0.53, 0.84),
        grain(2.6, 2., 0.12, 0.95),
    ];
    // the room, and the whole events before the halt, as the oracle's model has them
    let cases: [(Halt, u64, u64, Vec<Grain>); 11] = [
        (Halt::NotFinite, 64, 2, vec![grain(4.5, 5.5, 2f64.powi(-1015), 0.), grain(4.5, 2.5, 0., 1024.)]),
        (Halt::EventsFull, 16, 5, four),
        (Halt::ListFull, 64, 2, visited),
        (Halt::ListFull, 64, 7, vec![grain(2.5, 2.5, -1., -0.875)]),
        (Halt::ListedAlready, 64, 7, vec![grain(2.5, 4.5, -1., 0.)]),
        (Halt::ListedAlready, 64, 1, vec![grain(2.4999999999999996, 4.5, 1., 0.)]),
        (Halt::ListedAlready, 64, 17, vec![grain(0., 1., -1., -1.)]),
        (Halt::OnlyCell, 64, 1, vec![grain(3.5, 4.5, -1., 0.)]),
        (Halt::OnlyCell, 64, 1, vec![grain(8.5, 4.5, 1., 0.)]),
        (Halt::OnlyCell, 64, 7, vec![grain(4.5, 4.5, 1., 1.)]),
        (Halt::OnlyCell, 64, 1, vec![grain(0.49999999999999994, 4.5, -1., 0.)]),
    ];
    for (by, room, whole, grains) in cases {
        let mut simulation = Simulation::start(&BOX, room, &grains).unwrap();
        let mut done = 0;
        let halt = loop {
            match simulation.run(1., 1000) {
                Ok(report) => done += report.events,
                Err(error) => break error,
            }
        };
        let Error::Halted { by: found, clock, events } = halt else { panic!("{halt}") };
        assert_eq!((found, done + events), (by, whole), "{halt}");
        assert_eq!(clock, simulation.clock());
        again(&mut simulation, by);
    }
}

/// Later runs answer the same number whatever the rate, with zeros, and change nothing.
fn again(simulation: &mut Simulation, by: Halt) {
    let before = simulation.clone();
    for rate in [1., f64::NAN] {
        assert_eq!(simulation.run(rate, 1000), Err(Error::Halted { by, clock: 0., events: 0 }));
        assert_eq!(*simulation, before);
    }
}

#[test]
fn the_lost_grain_is_still_listed() {
    let mut simulation = Simulation::start(&BOX, 64, &[grain(3.5, 4.5, -1., 0.)]).unwrap();
    assert!(simulation.run(1., 1000).is_ok());
    let lost = simulation.run(1., 1000).unwrap_err();
    assert_eq!(lost.number(), 9);
    assert_eq!(
        lost.to_string(),
        "refused by 9: a grain would leave its only cell; halted at 1 after 0 events of this run"
    );
    assert_eq!((simulation.cells_of(0), simulation.grains_of(4)), (&[4][..], &[0][..]));
    assert_eq!(simulation.pending(4).count(), 0);
}
