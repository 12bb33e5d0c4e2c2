// The standing facts, tested on any state whose counts are in range.
use super::acts::earlier;
use super::grid::{box_in_range, cells_along};
use super::state::{Place, Row, State, COLLISION, NEIGHBOUR, OUT, SYNC, WALL};

type Fact = (fn(&State) -> bool, &'static str);

/// The first standing fact that a state breaks, if any. The later tests lean on the earlier ones.
pub fn broken(s: &State) -> Option<&'static str> {
    let facts: [Fact; 13] = [
        (no_mark, "no mark"),
        (box_stands, "box lengths and flags in range"),
        (cells_of_box, "cells as the box gives them"),
        (counts_in_range, "list counts in range"),
        (indices_in_range, "indices in range"),
        (numbers_finite, "stored numbers finite"),
        (lists_in_order, "event lists in time order, from the clock to below the largest float"),
        (grains_not_ahead, "no grain's time past the clock"),
        (heap_inverse, "heap and lookups inverse"),
        (heap_ordered, "no child earlier than its parent"),
        (one_synchronisation, "one synchronisation, in cell 0"),
        (lists_agree, "cells and grains list each other, once each; each grain in some cell"),
        (events_named, "events name grains that their cell lists"),
    ];
    facts.iter().find(|(holds, _)| !holds(s)).map(|(_, name)| *name)
}

fn no_mark(s: &State) -> bool {
    s.mark == 0
}

fn box_stands(s: &State) -> bool {
    box_in_range(s.lengths) && s.periodic.iter().all(|&p| p < 2)
}

fn cells_of_box(s: &State) -> bool {
    cells_along(s.lengths[0]) * cells_along(s.lengths[1]) == s.members.len()
}

fn counts_in_range(s: &State) -> bool {
    fn fits<T>(row: &Row<T>) -> bool {
        row.count <= row.places.len() as u64
    }
    s.homes.iter().all(fits) && s.members.iter().all(fits) && s.queues.iter().all(fits)
}

fn indices_in_range(s: &State) -> bool {
    let (grains, cells) = (s.grains.len() as u64, s.members.len() as u64);
    let known = |e: &Place| match e.kind {
        COLLISION => e.p < grains && e.q < grains,
        NEIGHBOUR | OUT => e.p < grains && e.cell < cells,
        WALL => e.p < grains,
        kind => kind == SYNC,
    };
    s.homes.iter().all(|r| r.live().iter().all(|&c| c < cells))
        && s.members.iter().all(|r| r.live().iter().all(|&g| g < grains))
        && s.queues.iter().all(|r| r.live().iter().all(known))
        && s.heap[..cells as usize].iter().all(|&c| c < cells)
        && s.look[..cells as usize].iter().all(|&n| n < cells)
}

fn numbers_finite(s: &State) -> bool {
    let all = |x: &[f64]| x.iter().all(|f| f.is_finite());
    s.clock.is_finite()
        && s.grains.iter().all(|g| all(&g.floats()))
        && s.queues.iter().flat_map(|r| r.live()).all(|e| e.time.is_finite() && all(&e.floats()))
}

fn lists_in_order(s: &State) -> bool {
    s.queues.iter().all(|r| {
        r.live().windows(2).all(|w| w[0].time <= w[1].time)
            && r.live().iter().all(|e| s.clock <= e.time && e.time < f64::MAX)
    })
}

fn grains_not_ahead(s: &State) -> bool {
    s.grains.iter().all(|g| g.time <= s.clock)
}

fn heap_inverse(s: &State) -> bool {
    (0..s.members.len())
        .all(|i| s.look[s.heap[i] as usize] == i as u64 && s.heap[s.look[i] as usize] == i as u64)
}

fn heap_ordered(s: &State) -> bool {
    let head = |i: usize| s.head(s.heap[i] as usize);
    (1..s.members.len()).all(|i| !earlier(head(i), head((i - 1) / 2)))
}

fn one_synchronisation(s: &State) -> bool {
    let count = |r: &Row<Place>| r.live().iter().filter(|e| e.kind == SYNC).count();
    count(&s.queues[0]) == 1 && s.queues[1..].iter().all(|r| count(r) == 0)
}

fn once(list: &[u64], item: u64) -> bool {
    list.iter().filter(|&&x| x == item).count() == 1
}

fn lists_agree(s: &State) -> bool {
    let homes = s.homes.iter().enumerate().all(|(g, home)| {
        let back = |&c: &u64| once(home.live(), c) && once(s.members[c as usize].live(), g as u64);
        home.count > 0 && home.live().iter().all(back)
    });
    let members = s.members.iter().enumerate().all(|(c, cell)| {
        let back = |&g: &u64| once(cell.live(), g) && once(s.homes[g as usize].live(), c as u64);
        cell.live().iter().all(back)
    });
    homes && members
}

fn events_named(s: &State) -> bool {
    s.queues.iter().enumerate().all(|(c, queue)| {
        let listed = |g: u64| s.members[c].live().contains(&g);
        queue.live().iter().all(|e| match e.kind {
            SYNC => true,
            COLLISION => listed(e.p) && listed(e.q) && e.p != e.q,
            OUT => listed(e.p) && e.cell == c as u64,
            _ => listed(e.p),
        })
    })
}
