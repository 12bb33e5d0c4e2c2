// The swaps of a row's heap updates. The model tells which cell's head changes, one update after another; the proved update, compiled, does each over
// a heap of its own and counts. Both must agree on every count, and on the heap after every run.
use oracle::model::run::{start, Started, Told};
use oracle::model::state::{State, Update};
use oracle::tables::{heap_bytes, Tables, FLOATS, NUMBERS};
use oracle::text::Start;

// beside the archive that the bindings link
#[link(name = "swaps", kind = "static")]
extern "C" {
    fn swaps_of_update(
        order: *mut u8,
        order_length: usize,
        queue: *const u64,
        queue_length: usize,
        events: *const f64,
        events_length: usize,
        cells: u64,
        room: u64,
        cell: u64,
        empty: bool,
        time: f64,
    ) -> u64;
}

/// The tables of a state, of which the heap's is kept up to date, and of the cells' events what the heap asks for.
struct Heap {
    tables: Tables,
    cells: usize,
    room: usize,
}

impl Heap {
    fn of(s: &State) -> Heap {
        Heap { tables: Tables::of(s), cells: s.queues.len(), room: s.room as usize }
    }

    /// A cell's head changes, and it finds its place: by how many swaps.
    fn update(&mut self, change: &Update) -> u64 {
        let Tables { queue, events, order, .. } = &mut self.tables;
        queue[change.cell * (1 + NUMBERS * self.room)] = u64::from(change.after.is_some());
        events[change.cell * FLOATS * self.room] = change.after.unwrap_or_default();
        // SAFETY: every slice is a vector's, with its length.
        unsafe {
            swaps_of_update(
                order.as_mut_ptr(),
                order.len(),
                queue.as_ptr(),
                queue.len(),
                events.as_ptr(),
                events.len(),
                self.cells as u64,
                self.room as u64,
                change.cell as u64,
                change.before.is_none(),
                change.before.unwrap_or_default(),
            )
        }
    }
}

/// How many updates the runs make, and their swaps.
#[derive(Default)]
pub struct Swaps {
    updates: u64,
    all: u64,
    pub most: u64,
}

impl Swaps {
    pub fn mean(&self) -> f64 {
        self.all as f64 / self.updates as f64
    }
}

/// The swaps of so many runs from a start, and the state that they leave.
pub fn counted(given: &Start, runs: u64) -> (Swaps, State) {
    let Started::Done(mut model) = start(given.lengths, given.periodic, given.room, &given.grains) else {
        panic!("the start is accepted");
    };
    let mut heap = Heap::of(&model);
    let mut swaps = Swaps::default();
    for _ in 0..runs {
        model.updates = Some(Vec::new());
        assert_eq!(model.run(given.rate, u32::MAX).told, Told::Synchronised);
        for change in model.updates.take().expect("the updates were asked for") {
            let made = heap.update(&change);
            assert_eq!(made, change.swaps, "both count alike");
            swaps.updates += 1;
            swaps.all += made;
            swaps.most = swaps.most.max(made);
        }
        assert_eq!(heap.tables.order, heap_bytes(&model), "both leave the same heap");
    }
    (swaps, *model)
}
