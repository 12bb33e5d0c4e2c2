// A state as a list of words, so that two states are equal exactly if their lists are.
use crate::model::state::{Grain, Place, State};

/// Everything that a dump shows.
pub fn seen(s: &State, out: &mut Vec<u64>) {
    out.clear();
    out.extend([s.clock.to_bits(), s.mark]);
    for (g, home) in s.grains.iter().zip(&s.homes) {
        grain(g, out);
        list(home.live(), out);
    }
    for (members, queue) in s.members.iter().zip(&s.queues) {
        list(members.live(), out);
        out.push(queue.count);
        queue.live().iter().for_each(|e| place(e, out));
    }
    let cells = s.members.len();
    out.extend(&s.heap[..cells]);
    out.extend(&s.look[..cells]);
}

/// Everything that the tables hold, unused places too.
pub fn held(s: &State) -> Vec<u64> {
    let mut out = Vec::new();
    out.extend(s.lengths.map(f64::to_bits));
    out.extend(s.periodic);
    out.extend([s.clock.to_bits(), s.mark, s.room]);
    s.grains.iter().for_each(|g| grain(g, &mut out));
    for row in s.homes.iter().chain(&s.members) {
        out.push(row.count);
        out.extend(&row.places);
    }
    for queue in &s.queues {
        out.push(queue.count);
        queue.places.iter().for_each(|e| place(e, &mut out));
    }
    out.extend(&s.heap);
    out.extend(&s.look);
    out
}

/// If every place that is not in use is zero, as a start and the runs after it leave them.
pub fn spare_clear(s: &State) -> bool {
    let numbers = |r: &crate::model::state::Row<u64>| r.places[r.count as usize..].iter().all(|&x| x == 0);
    let zero = |e: &Place| {
        let mut words = Vec::new();
        place(e, &mut words);
        words.iter().all(|&w| w == 0)
    };
    s.homes.iter().chain(&s.members).all(numbers)
        && s.queues.iter().all(|r| r.places[r.count as usize..].iter().all(zero))
}

fn list(live: &[u64], out: &mut Vec<u64>) {
    out.push(live.len() as u64);
    out.extend(live);
}

fn grain(g: &Grain, out: &mut Vec<u64>) {
    out.extend(g.floats().map(f64::to_bits));
}

/// A place's numbers and floats, in table order.
pub fn place(e: &Place, out: &mut Vec<u64>) {
    out.extend([e.kind, e.p, e.q, e.cell, e.time.to_bits()]);
    out.extend(e.floats().map(f64::to_bits));
}

/// Words as the programs of crates/ read them: 16 upper-case hex digits on a line each.
pub fn lines(words: &[u64]) -> String {
    words.iter().map(|w| format!("{w:016X}\n")).collect()
}
