// What the oracle needs of a tree of the published text: grains put in by document 01's order, one event
// at a time, and the whole state as plain numbers. Compiled once inside each tree.
use std::cell::RefCell;
use std::rc::Rc;

use super::super::myvec::MyVec;
use super::cell::{init_cells, Cell};
use super::event::inter_particle_collision::InterParticleCollision;
use super::event::move_out_of_cell::MoveOutOfCell;
use super::event::move_to_neighbour::MoveToNeighbour;
use super::event::util::correct_periodicity;
use super::event::wall_reflection::WallReflection;
use super::event::{Event, EventType};
use super::particle::{from_p_to_c, Particle};
use super::{Domain, Simulator, NDIMS};
use crate::leaf::Leaf;
use crate::model::state::{Grain, Inputs, Place, Row, State, COLLISION, NEIGHBOUR, OUT, SYNC, WALL};
use crate::rust::Published;
use crate::text::Start;

/// Grains by index, each into its cells in the order that `from_p_to_c` gives.
pub fn init_particles(
    domain: &Domain,
    ncells: &[usize; NDIMS],
    cells: &[Rc<RefCell<Cell>>],
    grains: &[Inputs],
    time: f64,
) -> Vec<Rc<RefCell<Particle>>> {
    let enter = |(index, grain): (usize, &Inputs)| {
        let [x, y, vx, vy, val, rad] = *grain;
        let (pos, vel) = (MyVec::new([x, y]), MyVec::new([vx, vy]));
        let cells_of = from_p_to_c(&domain.lengths, ncells, rad, &pos);
        let grain = Particle { index, rad, pos, vel, time, cells: Vec::new(), val };
        let grain = Rc::new(RefCell::new(grain));
        for cell in cells_of {
            cells[cell].borrow_mut().append(&grain);
            grain.borrow_mut().append(&cells[cell]);
        }
        grain
    };
    grains.iter().enumerate().map(enter).collect()
}

/// Named by a check that release semantics leave out; it is never called.
pub fn find_minimum_distance(_: &Domain, _: MyVec, _: MyVec) -> f64 {
    unreachable!("only the debug checks measure distances")
}

impl Published for Simulator {
    fn start(start: &Start) -> Simulator {
        let grains: Vec<Inputs> = start.grains.clone();
        Simulator::new(start.rate, start.lengths, start.periodic, &grains)
    }

    fn step(&mut self, rate: f64) {
        self.sync_rate = rate;
        self.integrate();
    }

    fn picture(&self) -> State {
        let number = |p: &Rc<RefCell<Particle>>| p.borrow().index as u64;
        let cell_number = |c: &Rc<RefCell<Cell>>| c.borrow().index as u64;
        let mut state = State::empty(self.domain.lengths, self.domain.periodicities.map(u64::from));
        state.clock = self.time;
        for p in &self.particles {
            let p = p.borrow();
            state.grains.push(Grain { pos: pair(p.pos), vel: pair(p.vel), time: p.time, val: p.val, rad: p.rad });
            state.homes.push(Row::of(p.cells.iter().map(cell_number).collect()));
        }
        for cell in &self.cells {
            let cell = cell.borrow();
            state.members.push(Row::of(cell.particles.borrow().iter().map(number).collect()));
            state.queues.push(Row::of(cell.events.borrow().iter().map(place).collect()));
        }
        state.heap = self.scheduler.heap.iter().map(cell_number).collect();
        state.look = self.scheduler.lookups.iter().map(|&n| n as u64).collect();
        state
    }

    fn correction(dpos: f64, length: f64) -> f64 {
        correct_periodicity(dpos, length, &super::cell::CellPosition::PositiveEdge)
    }

    fn product(a: [f64; 2], b: [f64; 2]) -> f64 {
        MyVec::new(a) * MyVec::new(b)
    }

    fn planned(leaf: &Leaf, kind: u64, dim: usize) -> Option<Place> {
        let domain = Domain { lengths: leaf.lengths, periodicities: leaf.periodic };
        let (_, cells) = init_cells(&domain);
        let (cell, time) = (&cells[leaf.cell], leaf.clock);
        let grain = |index: usize| {
            let [x, y, vx, vy, val, rad] = leaf.grains[index];
            let (pos, vel) = (MyVec::new([x, y]), MyVec::new([vx, vy]));
            Rc::new(RefCell::new(Particle { index, rad, pos, vel, time, cells: Vec::new(), val }))
        };
        let event = match kind {
            COLLISION => InterParticleCollision::schedule(&domain, time, cell, &grain(0), &grain(1)),
            NEIGHBOUR => MoveToNeighbour::schedule(&domain, time, cell, dim, &grain(0)),
            OUT => MoveOutOfCell::schedule(&domain, time, cell, dim, &grain(0)),
            _ => WallReflection::schedule(&domain, time, cell, dim, &grain(0)),
        };
        event.as_ref().map(place)
    }

    fn stepped(lengths: [f64; 2], pos: [f64; 2], vel: [f64; 2], dt: f64) -> [f64; 2] {
        let domain = Domain { lengths, periodicities: [true; NDIMS] };
        pair(Particle::get_new_pos(&domain, MyVec::new(pos), MyVec::new(vel), dt))
    }

    fn cells_touched(lengths: [f64; 2], pos: [f64; 2], rad: f64) -> Vec<usize> {
        let (ncells, _) = init_cells(&Domain { lengths, periodicities: [true; NDIMS] });
        from_p_to_c(&lengths, &ncells, rad, &MyVec::new(pos))
    }
}

fn pair(v: MyVec) -> [f64; 2] {
    [v[0], v[1]]
}

/// An event as a place of plain numbers; what its kind doesn't need is zero.
fn place(event: &Event) -> Place {
    let time = event.time;
    let index = |p: &Rc<RefCell<Particle>>| p.borrow().index as u64;
    match &event.eventtype {
        EventType::InterParticleCollision(e) => {
            assert!(e.p_new_val.to_bits() == e.q_new_val.to_bits(), "one mean value for both");
            Place {
                kind: COLLISION,
                p: index(&e.p_old),
                q: index(&e.q_old),
                time,
                a: pair(e.p_new_pos),
                b: pair(e.q_new_pos),
                c: pair(e.p_new_vel),
                d: pair(e.q_new_vel),
                val: e.p_new_val,
                ..Place::default()
            }
        }
        EventType::MoveToNeighbour(e) => {
            let (p, cell, a) = (index(&e.p_old), e.new_cell_index as u64, pair(e.p_new_pos));
            Place { kind: NEIGHBOUR, p, cell, time, a, ..Place::default() }
        }
        EventType::MoveOutOfCell(e) => {
            let (p, cell, a) = (index(&e.p_old), e.cell.borrow().index as u64, pair(e.p_new_pos));
            Place { kind: OUT, p, cell, time, a, ..Place::default() }
        }
        EventType::WallReflection(e) => {
            let (a, c, val) = (pair(e.p_new_pos), pair(e.p_new_vel), e.p_new_val);
            Place { kind: WALL, p: index(&e.p_old), time, a, c, val, ..Place::default() }
        }
        EventType::Synchronisation(_) => Place { kind: SYNC, time, ..Place::default() },
    }
}

/// Cells, grains and events hold each other; without this no run's memory would ever be given back.
impl Drop for Simulator {
    fn drop(&mut self) {
        for cell in &self.cells {
            let cell = cell.borrow();
            cell.events.borrow_mut().clear();
            cell.particles.borrow_mut().clear();
        }
        for p in &self.particles {
            p.borrow_mut().cells.clear();
        }
    }
}
