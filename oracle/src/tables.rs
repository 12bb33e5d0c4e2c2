// A state as the five tables that a caller lends (docs/TABLES.md), and back.
use crate::model::run::counts_in_range;
use crate::model::state::{Grain, Place, Row, State};
use crate::text::Start;

// the bindings' tables and their sizes: plain data, with nothing of the calls
#[path = "../../bindings/rust/src/tables.rs"]
mod plain;
pub use plain::{Tables, FLOATS, GRAIN, GRAINS_HEAD, HEAP, HOMES, LISTS_HEAD, MEMBERS, NUMBERS};

/// How long the tables must be, in the order of `Tables`.
pub fn needed(grains: usize, cells: usize, room: usize) -> [usize; 5] {
    [
        LISTS_HEAD + (1 + HOMES) * grains + (1 + MEMBERS) * cells,
        GRAINS_HEAD + GRAIN * grains,
        cells * (1 + NUMBERS * room),
        cells * FLOATS * room,
        2 * HEAP,
    ]
}

/// What a start needs whose numbers are in range.
pub fn needed_by(start: &Start) -> [usize; 5] {
    needed(start.grains.len(), start.cells(), start.room as usize)
}

impl Tables {
    /// Tables that are no longer than the state needs. Its rows have all their places.
    pub fn of(s: &State) -> Tables {
        let mut tables = Tables::cleared(needed(s.grains.len(), s.members.len(), s.room as usize));
        tables.write(s);
        tables
    }

    /// Writes a state into tables that are long enough. What lies beyond is left as it is.
    pub fn write(&mut self, s: &State) {
        over(&mut self.lists, &lists(s));
        over(&mut self.grains, &grains(s));
        over(&mut self.queue, &queue(s));
        over(&mut self.events, &events(s));
        over(&mut self.order, &heap_bytes(s));
    }

    /// The state that tables hold, with every number as it stands there; none exactly where a run is
    /// refused by 2.
    pub fn read(&self) -> Option<State> {
        let &[mark, g, c, room, p0, p1] = self.lists.first_chunk::<LISTS_HEAD>()?;
        let (grains, cells) = (usize::try_from(g).ok()?, usize::try_from(c).ok()?);
        if !counts_in_range(grains, cells, room) {
            return None;
        }
        let room_in = room as usize;
        if self.lengths().into_iter().zip(needed(grains, cells, room_in)).any(|(has, needs)| has < needs) {
            return None;
        }
        let homes = LISTS_HEAD + (1 + HOMES) * grains;
        let members = homes + (1 + MEMBERS) * cells;
        let places = self.queue.chunks_exact(1 + NUMBERS * room_in);
        let floats = self.events.chunks_exact(FLOATS * room_in);
        Some(State {
            lengths: [self.grains[0], self.grains[1]],
            periodic: [p0, p1],
            clock: self.grains[2],
            mark,
            room,
            grains: self.grains[GRAINS_HEAD..].chunks_exact(GRAIN).take(grains).map(grain).collect(),
            homes: self.lists[LISTS_HEAD..homes].chunks_exact(1 + HOMES).map(row).collect(),
            members: self.lists[homes..members].chunks_exact(1 + MEMBERS).map(row).collect(),
            queues: places
                .zip(floats)
                .take(cells)
                .map(|(numbers, floats)| events_in(numbers, floats))
                .collect(),
            heap: self.order[..HEAP].iter().map(|&n| n.into()).collect(),
            look: self.order[HEAP..2 * HEAP].iter().map(|&n| n.into()).collect(),
            updates: None,
        })
    }

    /// A copy of the first places of each table.
    pub fn first(&self, [lists, grains, queue, events, order]: [usize; 5]) -> Tables {
        Tables {
            lists: self.lists[..lists].to_vec(),
            grains: self.grains[..grains].to_vec(),
            queue: self.queue[..queue].to_vec(),
            events: self.events[..events].to_vec(),
            order: self.order[..order].to_vec(),
        }
    }

    /// Writes other tables over the first places of these.
    pub fn put_first(&mut self, other: &Tables) {
        over(&mut self.lists, &other.lists);
        over(&mut self.grains, &other.grains);
        over(&mut self.queue, &other.queue);
        over(&mut self.events, &other.events);
        over(&mut self.order, &other.order);
    }

    /// Every place as a word, in five parts.
    pub fn parts(&self) -> [Vec<u64>; 5] {
        let floats = |list: &[f64]| list.iter().map(|x| x.to_bits()).collect();
        let order = self.order.iter().map(|&n| n.into()).collect();
        [self.lists.clone(), floats(&self.grains), self.queue.clone(), floats(&self.events), order]
    }
}

// ---- what each table holds

fn over<T: Copy>(table: &mut [T], items: &[T]) {
    table[..items.len()].copy_from_slice(items);
}

fn lists(s: &State) -> Vec<u64> {
    let (grains, cells) = (s.grains.len() as u64, s.members.len() as u64);
    let mut out = vec![s.mark, grains, cells, s.room, s.periodic[0], s.periodic[1]];
    for row in s.homes.iter().chain(&s.members) {
        out.push(row.count);
        out.extend(&row.places);
    }
    out
}

fn grains(s: &State) -> Vec<f64> {
    let mut out = vec![s.lengths[0], s.lengths[1], s.clock];
    for g in &s.grains {
        out.extend(g.floats());
    }
    out
}

fn queue(s: &State) -> Vec<u64> {
    let mut out = Vec::new();
    for queue in &s.queues {
        out.push(queue.count);
        out.extend(queue.places.iter().flat_map(|e| [e.kind, e.p, e.q, e.cell]));
    }
    out
}

fn events(s: &State) -> Vec<f64> {
    let mut out = Vec::new();
    for e in s.queues.iter().flat_map(|queue| &queue.places) {
        out.push(e.time);
        out.extend(e.floats());
    }
    out
}

/// The heap and its lookups.
pub fn heap_bytes(s: &State) -> Vec<u8> {
    let byte = |&n: &u64| u8::try_from(n).expect("a cell number or a heap index is below 256");
    s.heap.iter().chain(&s.look).map(byte).collect()
}

// ---- and back

fn grain(floats: &[f64]) -> Grain {
    let &[x, y, vx, vy, time, val, rad] = floats else { unreachable!("seven floats") };
    Grain { pos: [x, y], vel: [vx, vy], time, val, rad }
}

fn row(numbers: &[u64]) -> Row<u64> {
    Row { count: numbers[0], places: numbers[1..].to_vec() }
}

fn events_in(numbers: &[u64], floats: &[f64]) -> Row<Place> {
    let event = |(n, f): (&[u64], &[f64])| Place {
        kind: n[0],
        p: n[1],
        q: n[2],
        cell: n[3],
        time: f[0],
        a: [f[1], f[2]],
        b: [f[3], f[4]],
        c: [f[5], f[6]],
        d: [f[7], f[8]],
        val: f[9],
    };
    let places = numbers[1..].chunks_exact(NUMBERS).zip(floats.chunks_exact(FLOATS)).map(event).collect();
    Row { count: numbers[0], places }
}

#[cfg(test)]
mod tests {
    use super::*;
    use crate::crafted::known_starts;
    use crate::known::{grain, sized, PERIODIC};
    use crate::model::run::Started;
    use crate::mutate::mutate;
    use crate::random::Random;
    use crate::starts::random_start;
    use crate::words::held;

    fn there_and_back(s: &State) {
        let back = Tables::of(s).read().expect("a state's own tables are long enough");
        assert!(held(s) == held(&back));
    }

    #[test]
    fn states_along_runs_come_back() {
        let mut random = Random(5);
        let mut starts = known_starts();
        starts.extend((0..40).map(|_| random_start(&mut random)));
        let mut states = 0;
        for start in starts {
            let Started::Done(mut s) = start.model() else { continue };
            for _ in 0..60 {
                there_and_back(&s);
                let mut other = s.clone();
                mutate(&mut other, &mut random);
                there_and_back(&other);
                states += 1;
                if s.mark != 0 || s.step(start.rate).is_err() {
                    break;
                }
            }
        }
        assert!(states > 1000, "only {states} states");
    }

    #[test]
    fn every_place_is_where_the_document_says() {
        let start =
            Start::small([true, false], 16, &[sized(4.5, 4.5, 0., 0., 0.25), grain(7.5, 7., 0., -0.25)]);
        let t = Tables::of(&start.accepted());
        assert_eq!(t.lengths(), [6 + 18 + 33 * 9, 3 + 14, 9 * 65, 9 * 160, 512]);
        assert_eq!(t.lists[..6], [0, 2, 9, 16, 1, 0]);
        // the first grain is in cell 4, the second in cell 8
        assert_eq!([t.lists[6], t.lists[7], t.lists[6 + 9], t.lists[6 + 9 + 1]], [1, 4, 1, 8]);
        assert_eq!(t.lists[24 + 33 * 4..][..2], [1, 0]);
        assert_eq!(t.lists[24 + 33 * 8..][..2], [1, 1]);
        assert_eq!(t.grains, [9., 9., 0., 4.5, 4.5, 0., 0., 0., 0.5, 0.25, 7.5, 7., 0., -0.25, 0., 0.5, 0.5]);
        // cell 0 has the synchronisation; cell 8 the way to cell 5 at distance 0.5, and out at 1.5
        assert_eq!(t.queue[..6], [1, 5, 0, 0, 0, 0]);
        assert_eq!(t.queue[65 * 8..][..9], [2, 2, 1, 0, 5, 3, 1, 0, 8]);
        assert_eq!(t.events[160 * 8..][..4], [2., 7.5, 6.5, 0.]);
        assert_eq!(t.events[160 * 8 + 10..][..4], [6., 7.5, 5.5, 0.]);
        assert_eq!(t.order[..10], [0, 8, 2, 1, 4, 5, 6, 7, 3, 0]);
    }

    #[test]
    fn short_tables_and_counts_out_of_range_hold_no_state() {
        let s = Start::small(PERIODIC, 16, &[grain(4.5, 4.5, 0., 0.)]).accepted();
        let whole = Tables::of(&s);
        for table in 0..5 {
            let mut short = whole.clone();
            match table {
                0 => drop(short.lists.pop()),
                1 => drop(short.grains.pop()),
                2 => drop(short.queue.pop()),
                3 => drop(short.events.pop()),
                _ => drop(short.order.pop()),
            }
            assert!(short.read().is_none());
        }
        for (place, count) in [(1, 257), (1, u64::MAX), (2, 8), (2, 257), (3, 15), (3, 257)] {
            let mut other = Tables::cleared([20_000, 20_000, 300_000, 700_000, 600]);
            other.write(&s);
            assert!(other.read().is_some());
            other.lists[place] = count;
            assert!(other.read().is_none());
        }
    }
}
