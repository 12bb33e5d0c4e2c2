// Grid, stepping, the cells a position touches, and the periodic correction.

/// The radii that a grain may bring.
pub const LEAST_RADIUS: f64 = 0.25;
pub const GREATEST_RADIUS: f64 = 0.5;
const CELL_SIZE: f64 = 3.;

#[derive(Clone, Copy, PartialEq)]
pub enum Edge {
    Negative,
    Centre,
    Positive,
}

/// If a box's lengths are in range.
pub fn box_in_range(lengths: [f64; 2]) -> bool {
    lengths.iter().all(|l| (9. ..=48.).contains(l))
}

/// Cells in one direction: length/3 cut to a whole number, and at least 3.
pub fn cells_along(length: f64) -> usize {
    let whole = (length / CELL_SIZE) as usize;
    if whole < 3 {
        3
    } else {
        whole
    }
}

/// A cell as the box gives it, in one direction.
#[derive(Clone, Copy)]
pub struct Span {
    pub low: f64,
    pub high: f64,
    pub edge: Edge,
    pub below: usize,
    pub above: usize,
}

/// Cell `cell` of a box with these lengths, in direction `dim`.
pub fn span(lengths: [f64; 2], cell: usize, dim: usize) -> Span {
    let n = lengths.map(cells_along);
    let at = [cell % n[0], cell / n[0]];
    let i = at[dim];
    let width = lengths[dim] / n[dim] as f64;
    let beside = |j: usize| {
        let mut other = at;
        other[dim] = j;
        other[0] + n[0] * other[1]
    };
    Span {
        low: width * i as f64,
        high: width * (i + 1) as f64,
        edge: match i {
            0 => Edge::Negative,
            _ if i + 1 == n[dim] => Edge::Positive,
            _ => Edge::Centre,
        },
        below: beside((i + n[dim] - 1) % n[dim]),
        above: beside((i + 1) % n[dim]),
    }
}

/// Position after dt: one length back into the box, once.
pub fn get_new_pos(lengths: [f64; 2], pos: [f64; 2], vel: [f64; 2], dt: f64) -> [f64; 2] {
    [0, 1].map(|dim| {
        let length = lengths[dim];
        let moved = pos[dim] + vel[dim] * dt;
        if moved < 0. {
            moved + length
        } else if moved > length {
            moved - length
        } else {
            moved
        }
    })
}

/// Periodic correction of a distance seen from a cell at `edge`; it asks for no flag.
pub fn corrected(dpos: f64, length: f64, edge: Edge) -> f64 {
    if edge == Edge::Centre {
        dpos
    } else if dpos < -(length / 2.) {
        dpos + length
    } else if dpos > length / 2. {
        dpos - length
    } else {
        dpos
    }
}

/// Columns between two distances from the low wall, rounded outwards and kept inside the box.
fn columns(length: f64, low: f64, high: f64) -> std::ops::Range<usize> {
    let n = cells_along(length);
    let width = length / n as f64;
    let from = low / width;
    let to = high / width + 1.;
    let from = if from > 0. { from } else { 0. };
    let to = if to < n as f64 { to } else { n as f64 };
    from as usize..to as usize
}

/// The columns that a grain touches in one direction; one across the border touches both ends.
fn touched(length: f64, pos: f64, rad: f64) -> Vec<usize> {
    let (low, high) = (pos - rad, pos + rad);
    if low < 0. {
        columns(length, 0., high).chain(columns(length, length + low, length)).collect()
    } else if high > length {
        columns(length, 0., high - length).chain(columns(length, low, length)).collect()
    } else {
        columns(length, low, high).collect()
    }
}

/// The cells that a grain of radius `rad` touches, direction 0 running fastest.
pub fn from_p_to_c(lengths: [f64; 2], pos: [f64; 2], rad: f64) -> Vec<usize> {
    let n0 = cells_along(lengths[0]);
    let across = touched(lengths[0], pos[0], rad);
    let row = |i1: usize| across.iter().map(move |i0| i0 + n0 * i1).collect::<Vec<_>>();
    touched(lengths[1], pos[1], rad).into_iter().flat_map(row).collect()
}
