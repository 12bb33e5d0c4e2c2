// A leaf: what one scheduling sees, with floats of full width. Beside it steppings and positions in boxes of the same kind.
use crate::model::grid::{cells_along, corrected, span};
use crate::model::plan::{collision, out_of_cell, to_neighbour, wall, Plan};
use crate::model::state::{Grain, Inputs, State, COLLISION, INPUTS, NEIGHBOUR, OUT};
use crate::radii::Radii;
use crate::random::Random;

/// A cell of a box with two grains, both stepped to the clock.
#[derive(Clone, Debug)]
pub struct Leaf {
    pub lengths: [f64; 2],
    pub periodic: [bool; 2],
    pub clock: f64,
    pub cell: usize,
    pub grains: [Inputs; 2],
}

impl Leaf {
    pub fn state(&self) -> State {
        let mut s = State::empty(self.lengths, self.periodic.map(u64::from));
        s.clock = self.clock;
        s.grains = self.grains.iter().map(|g| Grain::given(g, self.clock)).collect();
        s
    }

    /// How far the second grain is from the first, corrected, and the difference of their velocities.
    pub fn apart(&self) -> [f64; 4] {
        let [g, h] = self.grains;
        let dpos = |i: usize| corrected(h[i] - g[i], self.lengths[i], span(self.lengths, self.cell, i).edge);
        [dpos(0), dpos(1), h[2] - g[2], h[3] - g[3]]
    }

    /// What the model plans.
    pub fn model(&self, kind: u64, dim: usize) -> Plan {
        let s = self.state();
        match kind {
            COLLISION => collision(&s, self.cell, 0, 1),
            NEIGHBOUR => to_neighbour(&s, self.cell, dim, 0),
            OUT => out_of_cell(&s, self.cell, dim, 0),
            _ => wall(&s, self.cell, dim, 0),
        }
    }
}

fn length(r: &mut Random) -> f64 {
    if r.once_in(4) {
        r.pick(&[9., 12., 48.])
    } else {
        r.between(9., 48.)
    }
}

/// A speed of any size that a start may give, and some that only collisions could.
fn speed(r: &mut Random) -> f64 {
    match r.below(8) {
        0 => r.pick(&[0., -0., 1., -1.]),
        1 => r.between(-1024., 1024.),
        2 => r.between(-1., 1.) * 2f64.powi(r.below(1200) as i32 - 1100),
        _ => r.between(-2., 2.),
    }
}

/// A position in the cell or within a grain's radius of it, or anywhere in the box and around it.
fn position(r: &mut Random, length: f64, column: usize, rad: f64) -> f64 {
    let width = length / cells_along(length) as f64;
    match r.below(6) {
        0 => r.between(-3., length + 3.),
        1 => width * column as f64 + r.pick(&[-rad, 0., rad]),
        _ => r.between(width * column as f64 - rad, width * (column + 1) as f64 + rad),
    }
}

pub fn random_leaf(r: &mut Random, radii: Radii) -> Leaf {
    let lengths = [length(r), length(r)];
    let periodic = [r.once_in(2), r.once_in(2)];
    let n = lengths.map(cells_along);
    let at = n.map(|n| if r.once_in(2) { r.pick(&[0, n - 1]) } else { r.below(n as u64) as usize });
    let clock = if r.once_in(3) { 0. } else { r.between(0., 1000.) };
    let mut grains = [[0.; INPUTS]; 2];
    for g in &mut grains {
        let rad = radii.draw(r);
        let [x, y] = [0, 1].map(|dim| position(r, lengths[dim], at[dim], rad));
        *g = [x, y, speed(r), speed(r), r.between(0., 1.), rad];
    }
    if r.once_in(2) {
        // the second grain near the first and moving toward it
        let [x, y, ..] = grains[0];
        let (dx, dy) = (r.between(-2.5, 2.5), r.between(-2.5, 2.5));
        let pace = r.between(0.1, 3.);
        let aside = r.between(-0.3, 0.3);
        let [.., val, rad] = grains[1];
        grains[1] = [x + dx, y + dy, grains[0][2] - pace * dx, grains[0][3] - pace * dy + aside, val, rad];
    }
    Leaf { lengths, periodic, clock, cell: at[0] + n[0] * at[1], grains }
}

/// A stepping: lengths, position, velocity, dt.
pub type Stepping = ([f64; 2], [f64; 2], [f64; 2], f64);

pub fn random_stepping(r: &mut Random) -> Stepping {
    let lengths = [length(r), length(r)];
    let pos = lengths.map(|l| if r.once_in(5) { r.pick(&[0., -0., l]) } else { r.between(0., l) });
    let dt = if r.once_in(5) { 0. } else { r.between(0., 20.) };
    (lengths, pos, [speed(r), speed(r)], dt)
}

/// Lengths, a position, and a radius.
pub type Spot = ([f64; 2], [f64; 2], f64);

/// An accepted start position in a periodic box, often on a border.
pub fn random_spot(r: &mut Random, radii: Radii) -> Spot {
    let lengths = [length(r), length(r)];
    let rad = radii.draw(r);
    let pos = lengths.map(|l| {
        let n = cells_along(l);
        let border = l / n as f64 * r.below(n as u64 + 1) as f64 + r.pick(&[-rad, 0., rad]);
        let near = r.pick(&[border, border.next_up(), border.next_down()]);
        let x = if r.once_in(2) { near } else { r.between(0., l) };
        x.clamp(0., l)
    });
    (lengths, pos, rad)
}
