// States that no start reaches and that break no standing fact.
use super::values::number;
use crate::starts::one_of;
use oracle::model::state::{Place, Row, State, COLLISION, NEIGHBOUR, SYNC};
use oracle::random::Random;

/// One change that keeps the standing facts if they stood, unless a time grows too large.
pub fn rearrange(s: &mut State, r: &mut Random) {
    let cell = r.below(s.members.len() as u64) as usize;
    match r.below(10) {
        0 => shuffle(&mut s.members[cell], r),
        1 => {
            if let Some(grain) = r.bits().checked_rem(s.homes.len() as u64) {
                shuffle(&mut s.homes[grain as usize], r);
            }
        }
        2 => drop_event(&mut s.queues[cell], r),
        3 => double_event(&mut s.queues[cell], r),
        4 => another_event(s, cell, r),
        5 => unneeded(&mut s.queues[cell], r),
        6 => unused(s, cell, r),
        7 => exchange(s, cell, r),
        8 => later(s, r),
        _ => {
            let grain = r.bits().checked_rem(s.grains.len() as u64);
            if let Some(g) = grain.map(|n| &mut s.grains[n as usize]) {
                g.pos[r.below(2) as usize] = r.between(-60., 60.);
                g.vel[r.below(2) as usize] =
                    one_of([r.between(-3., 3.), r.between(-1e300, 1e300), 0., -0.], r);
                g.rad = one_of([g.rad, g.rad, r.between(0.25, 0.5), r.between(-5., 5.), f64::MAX, 0.], r);
            }
        }
    }
}

fn shuffle(row: &mut Row<u64>, r: &mut Random) {
    let count = row.count as usize;
    if count > 1 {
        row.places.swap(r.below(count as u64) as usize, r.below(count as u64) as usize);
    }
}

/// The place of an event that is neither a list's head nor a synchronisation.
fn later_event(row: &Row<Place>, r: &mut Random) -> Option<usize> {
    let at = r.bits().checked_rem(row.count)? as usize;
    (at > 0 && row.places[at].kind != SYNC).then_some(at)
}

fn drop_event(row: &mut Row<Place>, r: &mut Random) {
    if let Some(at) = later_event(row, r) {
        row.remove(at);
    }
}

/// The event once more, at the same time, right behind itself.
fn double_event(row: &mut Row<Place>, r: &mut Random) {
    if let Some(at) = later_event(row, r).filter(|_| !row.full()) {
        row.insert(at + 1, row.places[at]);
    }
}

/// An event's cell, or its floats, changed to others in range.
fn another_event(s: &mut State, cell: usize, r: &mut Random) {
    let cells = s.members.len() as u64;
    if let Some(e) = later_event(&s.queues[cell], r).map(|at| &mut s.queues[cell].places[at]) {
        if e.kind == NEIGHBOUR {
            e.cell = r.below(cells);
        }
        let finite = one_of([0., -0., r.between(-100., 100.), f64::MAX, 1e-310], r);
        let pair = r.pick(&[0, 1, 2]);
        [&mut e.a, &mut e.c, &mut e.d][pair][r.below(2) as usize] = finite;
    }
}

/// Numbers that an event's kind does not need.
fn unneeded(row: &mut Row<Place>, r: &mut Random) {
    if let Some(e) = later_event(row, r).map(|at| &mut row.places[at]) {
        let any = number(r, e.q, &[]);
        if e.kind == COLLISION {
            e.cell = any;
        } else {
            e.q = any;
        }
    }
}

/// What lies in the places that are not in use.
fn unused(s: &mut State, cell: usize, r: &mut Random) {
    let Row { count, places } = &mut s.members[cell];
    places[*count as usize..].fill_with(|| r.bits());
    for home in &mut s.homes {
        home.places[home.count as usize..].fill_with(|| r.bits());
    }
    let Row { count, places } = &mut s.queues[cell];
    for e in &mut places[*count as usize..] {
        let mut any = || f64::from_bits(r.bits());
        let (time, a, b, c, d, val) =
            (any(), [any(), any()], [any(), any()], [any(), any()], [any(), any()], any());
        *e = Place { kind: r.bits(), p: r.bits(), q: r.bits(), cell: r.bits(), time, a, b, c, d, val };
    }
    let cells = s.members.len();
    for half in [&mut s.heap, &mut s.look] {
        half[cells..].fill_with(|| r.below(256));
    }
}

/// Two heap places whose cells have equal heads, as two empty ones have.
fn exchange(s: &mut State, i: usize, r: &mut Random) {
    let j = r.below(s.members.len() as u64) as usize;
    let (a, b) = (s.heap[i] as usize, s.heap[j] as usize);
    if s.head(a).map(f64::to_bits) == s.head(b).map(f64::to_bits) {
        s.change_places(i, j);
    }
}

/// All times moved by the same: far enough, and a time plus dt is the time again.
fn later(s: &mut State, r: &mut Random) {
    let by = one_of([r.between(-9., 9.), 1e6, 1e16, -1e16, 1e300, f64::MAX / 2.], r);
    s.clock += by;
    s.grains.iter_mut().for_each(|g| g.time += by);
    for queue in &mut s.queues {
        let count = queue.count as usize;
        queue.places[..count].iter_mut().for_each(|e| e.time += by);
    }
}
