// The inputs: boxes with grains at random in a part of them, none touching another, at speeds up to 1 in each direction.
use oracle::model::state::Inputs;
use oracle::radii::Radii;
use oracle::random::Random;
use oracle::text::Start;

pub struct Row {
    pub name: &'static str,
    /// Each side of the box.
    length: f64,
    /// Each side of the part, at the box's lower corner, that the grains start in.
    filled: f64,
    pub grains: usize,
    pub room: u64,
    /// How many times a run goes on to the next synchronisation, at rate 1.
    pub runs: u64,
    radii: Radii,
}

const fn row(name: &'static str, length: f64, filled: f64, grains: usize, room: u64, runs: u64) -> Row {
    Row { name, length, filled, grains, room, runs, radii: Radii::Half }
}

pub const ROWS: [Row; 8] = [
    row("9 by 9, sparse", 9., 9., 4, 64, 20_000),
    row("9 by 9, dense", 9., 9., 32, 128, 2_000),
    row("24 by 24", 24., 24., 200, 128, 200),
    row("48 by 48, sparse", 48., 48., 16, 64, 5_000),
    row("48 by 48", 48., 48., 200, 64, 400),
    row("48 by 48, most grains", 48., 48., 256, 64, 300),
    row("48 by 48, crowded", 48., 22., 256, 128, 200),
    Row { radii: Radii::Three, ..row("24 by 24, three sizes", 24., 24., 200, 128, 200) },
];

impl Row {
    /// Periodic in the first direction and between walls in the second, as the published program has it.
    pub fn start(&self) -> Start {
        let mut random = Random(1);
        let mut grains: Vec<Inputs> = Vec::new();
        while grains.len() < self.grains {
            let rad = self.radii.draw(&mut random);
            let [x, y] = [(); 2].map(|()| random.between(rad, self.filled - rad));
            if grains.iter().all(|g| (g[0] - x).hypot(g[1] - y) > g[5] + rad) {
                let [vx, vy] = [(); 2].map(|()| random.between(-1., 1.));
                grains.push([x, y, vx, vy, random.between(0., 1.), rad]);
            }
        }
        Start { lengths: [self.length; 2], periodic: [true, false], rate: 1., room: self.room, grains }
    }
}
