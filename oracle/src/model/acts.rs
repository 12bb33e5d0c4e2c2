// The acts: each is done whole or refused by its number with nothing changed.
use super::state::{Grain, Place, State, Update};

pub type Act = Result<(), u64>;

fn finite(numbers: &[f64]) -> bool {
    numbers.iter().all(|x| x.is_finite())
}

/// Is one head earlier than the other? An empty list is behind every time.
pub fn earlier(one: Option<f64>, other: Option<f64>) -> bool {
    match (one, other) {
        (Some(t), Some(u)) => t < u,
        (Some(_), None) => true,
        (None, _) => false,
    }
}

impl State {
    /// Time of a cell's head event; an empty list has none.
    pub fn head(&self, cell: usize) -> Option<f64> {
        self.queues[cell].live().first().map(|e| e.time)
    }

    /// Head time at a heap index; past the end there is none.
    fn at(&self, index: usize) -> Option<f64> {
        if index < self.members.len() {
            self.head(self.heap[index] as usize)
        } else {
            None
        }
    }

    /// Exchanges two heap places, their lookups with them.
    pub fn change_places(&mut self, i: usize, j: usize) {
        self.heap.swap(i, j);
        self.look[self.heap[i] as usize] = i as u64;
        self.look[self.heap[j] as usize] = j as u64;
    }

    /// Brings the heap in order after a cell's head time went from `before` to what it is now. Whoever asked is told.
    fn update(&mut self, cell: usize, before: Option<f64>) {
        let after = self.head(cell);
        let swaps = self.shift(cell, earlier(before, after));
        if let Some(updates) = &mut self.updates {
            updates.push(Update { cell, before, after, swaps });
        }
    }

    /// Shifts a cell down or up to its place, and says by how many swaps.
    fn shift(&mut self, cell: usize, down: bool) -> u64 {
        let mut here = self.look[cell] as usize;
        let mut swaps = 0;
        if down {
            loop {
                let (left, right) = (2 * here + 1, 2 * here + 2);
                let (l, r, parent) = (self.at(left), self.at(right), self.at(here));
                let child = if earlier(l, parent) && !earlier(r, l) {
                    left
                } else if earlier(r, parent) && earlier(r, l) {
                    right
                } else {
                    return swaps;
                };
                self.change_places(here, child);
                here = child;
                swaps += 1;
            }
        }
        while here > 0 && earlier(self.at(here), self.at((here - 1) / 2)) {
            self.change_places(here, (here - 1) / 2);
            here = (here - 1) / 2;
            swaps += 1;
        }
        swaps
    }

    /// Stores a grain's new numbers: 5.
    pub fn store(&mut self, grain: u64, new: Grain) -> Act {
        if !finite(&new.floats()) {
            return Err(5);
        }
        self.grains[grain as usize] = new;
        Ok(())
    }

    /// Inserts an event after every one that is not later: 5 before 6.
    pub fn insert(&mut self, cell: usize, event: Place) -> Act {
        if !(finite(&event.floats()) && event.time.is_finite() && event.time < f64::MAX) {
            return Err(5);
        }
        if self.queues[cell].full() {
            return Err(6);
        }
        let before = self.head(cell);
        let at = self.queues[cell].live().iter().take_while(|e| e.time <= event.time).count();
        self.queues[cell].insert(at, event);
        self.update(cell, before);
        Ok(())
    }

    /// Cancels the events of one cell that name a grain.
    pub fn cancel(&mut self, cell: usize, grain: u64) {
        let before = self.head(cell);
        self.queues[cell].keep(|e| !e.names(grain));
        self.update(cell, before);
    }

    /// Takes the earliest event out and sets the clock to its time.
    pub fn take_head(&mut self) -> Place {
        let cell = self.heap[0] as usize;
        let before = self.head(cell);
        let event = self.queues[cell].remove(0);
        self.update(cell, before);
        self.clock = event.time;
        event
    }

    /// Enters a grain in a cell, in both lists: 8 before 7, the cell's room before the grain's.
    pub fn enter(&mut self, grain: u64, cell: usize) -> Act {
        let (members, home) = (&mut self.members[cell], &mut self.homes[grain as usize]);
        if members.live().contains(&grain) {
            return Err(8);
        }
        if members.full() || home.full() {
            return Err(7);
        }
        members.insert(members.count as usize, grain);
        home.insert(home.count as usize, cell as u64);
        Ok(())
    }

    /// Takes a grain out of a cell, in both lists: 9 if it is the grain's only cell.
    pub fn leave(&mut self, grain: u64, cell: usize) -> Act {
        if self.homes[grain as usize].count < 2 {
            return Err(9);
        }
        self.members[cell].keep(|&g| g != grain);
        self.homes[grain as usize].keep(|&c| c != cell as u64);
        Ok(())
    }
}
