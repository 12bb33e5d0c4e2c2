// Scheduling: for each kind an event, none, or refusal 5. Nothing is stored here.
use super::grid::{corrected, get_new_pos, span, Edge};
use super::state::{Place, State, COLLISION, NEIGHBOUR, OUT, WALL};

/// An event, none, or the number of a refusal.
pub type Plan = Result<Option<Place>, u64>;

const RESTITUTION: f64 = 0.99;
const SMALL: f64 = 2.220446049250313e-16; // 2^-52

fn dot(u: [f64; 2], v: [f64; 2]) -> f64 {
    u[0] * v[0] + u[1] * v[1]
}

fn by_component(f: impl Fn(usize) -> f64) -> [f64; 2] {
    [f(0), f(1)]
}

/// Square root with document 01's refusals.
pub fn root(d: f64) -> Result<f64, u64> {
    if d.is_nan() || d < 0. {
        Err(5)
    } else {
        Ok(d.sqrt())
    }
}

/// Time to contact for a corrected distance, a velocity difference and the sum of two radii: some, none, or refusal 5.
pub fn contact(dpos: [f64; 2], dvel: [f64; 2], reach: f64) -> Result<Option<f64>, u64> {
    let a = dot(dvel, dvel);
    let b = dot(dvel, dpos);
    let c = dot(dpos, dpos) - reach * reach;
    let d = b * b - a * c;
    if a < SMALL || 0. <= b || c < 0. || d < 0. {
        return Ok(None);
    }
    let dt = 1. / a * (-root(d)? - b);
    Ok(if dt < 0. { None } else { Some(dt) })
}

/// The collision of grains p and q seen from a cell.
pub fn collision(s: &State, cell: usize, p: u64, q: u64) -> Plan {
    let edges = [0, 1].map(|dim| span(s.lengths, cell, dim).edge);
    let (g, h) = (s.grains[p as usize], s.grains[q as usize]);
    let apart =
        |from: [f64; 2], to: [f64; 2]| by_component(|i| corrected(to[i] - from[i], s.lengths[i], edges[i]));
    let dvel = by_component(|i| h.vel[i] - g.vel[i]);
    let reach = g.rad + h.rad;
    let Some(dt) = contact(apart(g.pos, h.pos), dvel, reach)? else {
        return Ok(None);
    };
    let a = get_new_pos(s.lengths, g.pos, g.vel, dt);
    let b = get_new_pos(s.lengths, h.pos, h.vel, dt);
    let val = 0.5 * g.val + 0.5 * h.val;
    let touching = apart(a, b);
    let normal = by_component(|i| touching[i] / reach);
    let gravity = [0, 1].map(|dim| if s.is_periodic(dim) { 0. } else { -0.5 });
    let shared = by_component(|i| 0.5 * g.vel[i] + 0.5 * h.vel[i] + (val - 0.5) * gravity[i]);
    let impulse = (1. + RESTITUTION) * dot(dvel, normal);
    let parted = by_component(|i| dvel[i] - impulse * normal[i]);
    let c = by_component(|i| shared[i] - 0.5 * parted[i]);
    let d = by_component(|i| shared[i] + 0.5 * parted[i]);
    Ok(Some(Place { kind: COLLISION, p, q, cell: 0, time: s.clock + dt, a, b, c, d, val }))
}

/// A move of grain p in one direction: into the neighbour ahead, or out of the cell behind it.
fn moved(s: &State, cell: usize, dim: usize, p: u64, kind: u64) -> Plan {
    let here = span(s.lengths, cell, dim);
    let g = s.grains[p as usize];
    let (pos, vel) = (g.pos[dim], g.vel[dim]);
    if vel == 0. {
        return Ok(None);
    }
    let low = vel < 0.;
    if !s.is_periodic(dim) && here.edge == if low { Edge::Negative } else { Edge::Positive } {
        return Ok(None);
    }
    let rad = if kind == NEIGHBOUR { g.rad } else { -g.rad };
    let dpos = if low { here.low + rad - pos } else { here.high - rad - pos };
    let dt = corrected(dpos, s.lengths[dim], here.edge) / vel;
    if dt <= 0. {
        return Ok(None);
    }
    let cell = match (kind, low) {
        (OUT, _) => cell,
        (_, true) => here.below,
        (_, false) => here.above,
    };
    let a = get_new_pos(s.lengths, g.pos, g.vel, dt);
    Ok(Some(Place { kind, p, cell: cell as u64, time: s.clock + dt, a, ..Place::default() }))
}

pub fn to_neighbour(s: &State, cell: usize, dim: usize, p: u64) -> Plan {
    moved(s, cell, dim, p, NEIGHBOUR)
}

pub fn out_of_cell(s: &State, cell: usize, dim: usize, p: u64) -> Plan {
    moved(s, cell, dim, p, OUT)
}

/// A reflection of grain p at the wall it moves toward; only the edge cell at that wall plans it.
pub fn wall(s: &State, cell: usize, dim: usize, p: u64) -> Plan {
    let here = span(s.lengths, cell, dim);
    let g = s.grains[p as usize];
    let (pos, vel) = (g.pos[dim], g.vel[dim]);
    if s.is_periodic(dim) || vel == 0. {
        return Ok(None);
    }
    let low = vel < 0.;
    if here.edge != if low { Edge::Negative } else { Edge::Positive } {
        return Ok(None);
    }
    let dpos = if low { here.low + g.rad - pos } else { here.high - g.rad - pos };
    let dt = dpos / vel;
    if dt <= 0. {
        return Ok(None);
    }
    let a = get_new_pos(s.lengths, g.pos, g.vel, dt);
    let mut c = g.vel;
    c[dim] = -vel;
    let fixed = if low { 0. } else { 1. };
    let val = 0.5 * (fixed + g.val);
    Ok(Some(Place { kind: WALL, p, time: s.clock + dt, a, c, val, ..Place::default() }))
}
