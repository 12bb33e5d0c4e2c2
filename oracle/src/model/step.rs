// Scheduling a grain's events in a cell, the first events, the five executions, and one step.
use super::acts::Act;
use super::grid::get_new_pos;
use super::plan::{collision, out_of_cell, to_neighbour, wall, Plan};
use super::state::{Grain, Place, State, COLLISION, NEIGHBOUR, OUT, SYNC, WALL};

impl State {
    /// Inserts what was planned, if anything was.
    fn put(&mut self, cell: usize, plan: Plan) -> Act {
        match plan? {
            Some(event) => self.insert(cell, event),
            None => Ok(()),
        }
    }

    /// Steps a grain to the clock.
    fn step_grain(&mut self, grain: u64) -> Act {
        let g = self.grains[grain as usize];
        let pos = get_new_pos(self.lengths, g.pos, g.vel, self.clock - g.time);
        self.store(grain, Grain { pos, time: self.clock, ..g })
    }

    /// Stores what an event gives a grain, at the clock; its radius stays.
    fn renew(&mut self, grain: u64, pos: [f64; 2], vel: [f64; 2], val: f64) -> Act {
        let rad = self.grains[grain as usize].rad;
        self.store(grain, Grain { pos, vel, time: self.clock, val, rad })
    }

    /// Both directions of each of the three kinds that a border gives.
    fn schedule_borders(&mut self, grain: u64, cell: usize) -> Act {
        for kind in [to_neighbour, out_of_cell, wall] {
            for dim in 0..2 {
                let plan = kind(self, cell, dim, grain);
                self.put(cell, plan)?;
            }
        }
        Ok(())
    }

    /// Steps the cell's other grains to the clock, then schedules all of the grain's events there.
    fn schedule_events(&mut self, grain: u64, cell: usize) -> Act {
        let listed = self.members[cell].live().iter().copied();
        let others: Vec<u64> = listed.filter(|&q| q != grain).collect();
        for &q in &others {
            self.step_grain(q)?;
        }
        for &q in &others {
            let plan = collision(self, cell, grain, q);
            self.put(cell, plan)?;
        }
        self.schedule_borders(grain, cell)
    }

    /// The first events: cell by cell, pairs before borders; cell 0 begins with the synchronisation.
    pub fn init_events(&mut self) -> Act {
        for cell in 0..self.members.len() {
            if cell == 0 {
                self.insert(0, synchronisation(self.clock))?;
            }
            let listed = self.members[cell].live().to_vec();
            for (n, &p) in listed.iter().enumerate() {
                for &q in &listed[n + 1..] {
                    let plan = collision(self, cell, p, q);
                    self.put(cell, plan)?;
                }
            }
            for &p in &listed {
                self.schedule_borders(p, cell)?;
            }
        }
        Ok(())
    }

    /// The cells that list a grain, in its list's order.
    fn cells_of(&self, grain: u64) -> Vec<usize> {
        self.homes[grain as usize].live().iter().map(|&c| c as usize).collect()
    }

    /// Cancels, for each grain in turn, its events in all its cells; then schedules anew likewise.
    fn reschedule(&mut self, grains: &[u64]) -> Act {
        for &g in grains {
            for cell in self.cells_of(g) {
                self.cancel(cell, g);
            }
        }
        for &g in grains {
            for cell in self.cells_of(g) {
                self.schedule_events(g, cell)?;
            }
        }
        Ok(())
    }

    fn execute(&mut self, e: Place, rate: f64) -> Act {
        let time = self.clock;
        match e.kind {
            COLLISION => {
                self.renew(e.p, e.a, e.c, e.val)?;
                self.renew(e.q, e.b, e.d, e.val)?;
                self.reschedule(&[e.p, e.q])
            }
            NEIGHBOUR => {
                self.store(e.p, Grain { pos: e.a, time, ..self.grains[e.p as usize] })?;
                self.enter(e.p, e.cell as usize)?;
                self.schedule_events(e.p, e.cell as usize)
            }
            OUT => {
                self.store(e.p, Grain { pos: e.a, time, ..self.grains[e.p as usize] })?;
                self.cancel(e.cell as usize, e.p);
                self.leave(e.p, e.cell as usize)
            }
            WALL => {
                self.renew(e.p, e.a, e.c, e.val)?;
                self.reschedule(&[e.p])
            }
            _ => {
                for g in 0..self.grains.len() as u64 {
                    self.step_grain(g)?;
                }
                self.insert(0, synchronisation(time + rate))
            }
        }
    }

    /// Does one event. Says if it was a synchronisation; a refusal is marked.
    pub fn step(&mut self, rate: f64) -> Result<bool, u64> {
        let event = self.take_head();
        match self.execute(event, rate) {
            Ok(()) => Ok(event.kind == SYNC),
            Err(number) => {
                self.mark = number;
                Err(number)
            }
        }
    }
}

fn synchronisation(time: f64) -> Place {
    Place { kind: SYNC, time, ..Place::default() }
}
