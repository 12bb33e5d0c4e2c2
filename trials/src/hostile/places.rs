// The kinds of places that tables have, and one number changed in a place of a kind.
use super::values::{float, number};
use oracle::model::state::State;
use oracle::random::Random;
use oracle::tables::{needed, Tables, FLOATS, GRAIN, GRAINS_HEAD, HEAP, HOMES, LISTS_HEAD, MEMBERS, NUMBERS};

const KINDS: [&str; 31] = [
    "run, changed: mark",
    "run, changed: grain count",
    "run, changed: cell count",
    "run, changed: room",
    "run, changed: flag",
    "run, changed: count of a grain's cells",
    "run, changed: cell in a grain's list",
    "run, changed: unused place of a grain's list",
    "run, changed: count of a cell's grains",
    "run, changed: grain in a cell's list",
    "run, changed: unused place of a cell's list",
    "run, changed: box length",
    "run, changed: clock",
    "run, changed: position",
    "run, changed: velocity",
    "run, changed: grain's time",
    "run, changed: value",
    "run, changed: radius",
    "run, changed: count of events",
    "run, changed: kind of an event",
    "run, changed: first grain of an event",
    "run, changed: second grain of an event",
    "run, changed: cell of an event",
    "run, changed: number of an unused event place",
    "run, changed: event time",
    "run, changed: float of an event",
    "run, changed: float of an unused event place",
    "run, changed: heap place",
    "run, changed: lookup",
    "run, changed: heap place or lookup past the cells",
    "run, changed: beyond what is needed",
];

/// A place of a table: the table's number and the index.
type At = (usize, usize);

/// Changes one place; answers its kind. There may be none of the kind that was drawn: then another is drawn.
pub fn change_one(s: &State, t: &mut Tables, r: &mut Random) -> &'static str {
    loop {
        let kind = r.below(KINDS.len() as u64) as usize;
        if let Some((table, at)) = place(s, t, kind, r) {
            change(t, table, at, r);
            return KINDS[kind];
        }
    }
}

/// Changes a place of a table, if it has any: at random, whatever its kind.
pub fn change_any(t: &mut Tables, r: &mut Random) {
    let table = r.below(5) as usize;
    let length = t.lengths()[table] as u64;
    if length > 0 {
        change(t, table, r.below(length) as usize, r);
    }
}

fn change(t: &mut Tables, table: usize, at: usize, r: &mut Random) {
    match table {
        0 => t.lists[at] = number(r, t.lists[at], &t.lists),
        1 => t.grains[at] = float(r, t.grains[at], &t.grains),
        2 => t.queue[at] = number(r, t.queue[at], &t.queue),
        3 => t.events[at] = float(r, t.events[at], &t.events),
        _ => t.order[at] = number(r, t.order[at].into(), &[]) as u8,
    }
}

fn below(r: &mut Random, n: usize) -> Option<usize> {
    (n > 0).then(|| r.below(n as u64) as usize)
}

/// A place in use, or an unused one, of a row with so many places.
fn in_row(r: &mut Random, used: bool, count: u64, places: usize) -> Option<usize> {
    let count = count as usize;
    if used {
        below(r, count)
    } else {
        below(r, places - count).map(|n| count + n)
    }
}

fn place(s: &State, t: &Tables, kind: usize, r: &mut Random) -> Option<At> {
    match kind {
        0..=3 => Some((0, kind)),
        4 => Some((0, 4 + r.below(2) as usize)),
        5..=7 => home(s, kind - 5, r),
        8..=10 => member(s, kind - 8, r),
        11 => Some((1, r.below(2) as usize)),
        12 => Some((1, 2)),
        13..=17 => {
            let field = [r.below(2), 2 + r.below(2), 4, 5, 6][kind - 13] as usize;
            below(r, s.grains.len()).map(|grain| (1, GRAINS_HEAD + GRAIN * grain + field))
        }
        18..=23 => queue(s, kind - 18, r),
        24..=26 => event(s, kind - 24, r),
        27..=29 => order(s, kind - 27, r),
        _ => {
            let table = r.below(5) as usize;
            let need = needed(s.grains.len(), s.members.len(), s.room as usize)[table];
            below(r, t.lengths()[table] - need).map(|n| (table, need + n))
        }
    }
}

/// Of a grain's list: its count, a place in use, an unused place.
fn home(s: &State, what: usize, r: &mut Random) -> Option<At> {
    let grain = below(r, s.grains.len())?;
    let at = LISTS_HEAD + (1 + HOMES) * grain;
    if what == 0 {
        return Some((0, at));
    }
    in_row(r, what == 1, s.homes[grain].count, HOMES).map(|n| (0, at + 1 + n))
}

/// The same of a cell's list.
fn member(s: &State, what: usize, r: &mut Random) -> Option<At> {
    let cell = below(r, s.members.len())?;
    let at = LISTS_HEAD + (1 + HOMES) * s.grains.len() + (1 + MEMBERS) * cell;
    if what == 0 {
        return Some((0, at));
    }
    in_row(r, what == 1, s.members[cell].count, MEMBERS).map(|n| (0, at + 1 + n))
}

/// Of a cell's events: their count, one of the four numbers of a place in use, a number of an unused one.
fn queue(s: &State, what: usize, r: &mut Random) -> Option<At> {
    let (cell, room) = (below(r, s.queues.len())?, s.room as usize);
    let at = (1 + NUMBERS * room) * cell;
    let number = match what {
        0 => return Some((2, at)),
        1..=4 => what - 1,
        _ => r.below(NUMBERS as u64) as usize,
    };
    in_row(r, what < 5, s.queues[cell].count, room).map(|n| (2, at + 1 + NUMBERS * n + number))
}

/// The time or a float of a place in use, or one of an unused place.
fn event(s: &State, what: usize, r: &mut Random) -> Option<At> {
    let (cell, room) = (below(r, s.queues.len())?, s.room as usize);
    let float = match what {
        0 => 0,
        1 => 1 + r.below(FLOATS as u64 - 1) as usize,
        _ => r.below(FLOATS as u64) as usize,
    };
    in_row(r, what < 2, s.queues[cell].count, room).map(|n| (3, FLOATS * (room * cell + n) + float))
}

/// A heap place, a lookup, or either past the cells.
fn order(s: &State, what: usize, r: &mut Random) -> Option<At> {
    let cells = s.members.len();
    match what {
        0 => below(r, cells).map(|n| (4, n)),
        1 => below(r, cells).map(|n| (4, HEAP + n)),
        _ => below(r, HEAP - cells).map(|n| (4, cells + n + HEAP * r.below(2) as usize)),
    }
}
