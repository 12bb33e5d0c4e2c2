//! Random starts in which no grain overlaps another, in a square periodic box, and how a run from one ends.
use crate::random::Random;
use fesolopi::{Domain, Error, Grain, Simulation};

pub struct Packing {
    pub grains: usize,
    pub radius: f64,
    pub length: f64,
    /// How many events a cell holds.
    pub room: u64,
    /// The time until which a run is followed.
    pub end: f64,
}

impl Packing {
    /// Whether two grains overlap, the shortest way round.
    fn overlap(&self, p: [f64; 2], q: [f64; 2]) -> bool {
        let [dx, dy] = [0, 1].map(|dim| {
            let apart = (p[dim] - q[dim]).abs();
            apart.min(self.length - apart)
        });
        dx * dx + dy * dy < 4. * self.radius * self.radius
    }

    /// A start. A position that is out of the box, or overlaps one before it, is drawn again.
    pub fn drawn(&self, random: &mut Random, coordinate: impl Fn(&mut Random) -> f64) -> Vec<Grain> {
        let mut grains: Vec<Grain> = vec![];
        while grains.len() < self.grains {
            let position = [0, 1].map(|_| coordinate(random));
            let inside = position.iter().all(|x| (0. ..=self.length).contains(x));
            if inside && grains.iter().all(|grain| !self.overlap(grain.position, position)) {
                let velocity = [0, 1].map(|_| random.between(-1., 1.));
                grains.push(Grain { position, velocity, value: 0.5, rad: self.radius });
            }
        }
        grains
    }

    /// The number and the time of the halt, if the start or a run from it halts.
    pub fn halt(&self, grains: &[Grain]) -> Option<(u64, f64)> {
        let domain = Domain { lengths: [self.length; 2], periodic: [true, true] };
        let mut simulation = Simulation::start(&domain, self.room, grains).expect("an accepted start");
        while simulation.clock() < self.end {
            match simulation.run(1., 1_000_000) {
                Ok(_) => {}
                Err(Error::Halted { by, clock, .. }) => return Some((by.number(), clock)),
                Err(error) => panic!("{error}"),
            }
        }
        None
    }
}
