//! The archive's four calls, linked, and as safe functions over slices: the only unsafe code here. `bindings/fesolopi.h` says what each answers.
//!
//! The calls are sound for any numbers and any content of the tables. They ask that a pointer and the length
//! behind it are those of one lent table, that pointers are aligned and not null, and that nothing lent
//! overlaps. Rust's references give all of that: each pointer below is made from one, its length from the
//! same slice, and two `&mut` never overlap.

/// The number of a run that spent its budget.
pub const SPENT: u64 = 100;

extern "C" {
    fn fesolopi_start(
        l0: f64,
        l1: f64,
        periodic0: bool,
        periodic1: bool,
        count: u64,
        room: u64,
        inputs: *const f64,
        inputs_length: usize,
        lists: *mut u64,
        lists_length: usize,
        grains: *mut f64,
        grains_length: usize,
        queue: *mut u64,
        queue_length: usize,
        events: *mut f64,
        events_length: usize,
        order: *mut u8,
        order_length: usize,
        grain: *mut u64,
    ) -> u64;

    fn fesolopi_run(
        lists: *mut u64,
        lists_length: usize,
        grains: *mut f64,
        grains_length: usize,
        queue: *mut u64,
        queue_length: usize,
        events: *mut f64,
        events_length: usize,
        order: *mut u8,
        order_length: usize,
        rate: f64,
        budget: u32,
        clock: *mut f64,
        done: *mut u64,
    ) -> u64;

    fn fesolopi_needed(
        l0: f64,
        l1: f64,
        count: u64,
        room: u64,
        inputs: *mut u64,
        lists: *mut u64,
        grains: *mut u64,
        queue: *mut u64,
        events: *mut u64,
        order: *mut u64,
    ) -> u64;

    fn fesolopi_square_root(d: f64, root: *mut f64) -> u64;
}

/// The number of a start; `grain` is the one that it names.
#[allow(clippy::too_many_arguments)]
pub fn start(
    lengths: [f64; 2],
    periodic: [bool; 2],
    count: u64,
    room: u64,
    inputs: &[f64],
    lists: &mut [u64],
    grains: &mut [f64],
    queue: &mut [u64],
    events: &mut [f64],
    order: &mut [u8],
    grain: &mut u64,
) -> u64 {
    unsafe {
        fesolopi_start(
            lengths[0],
            lengths[1],
            periodic[0],
            periodic[1],
            count,
            room,
            inputs.as_ptr(),
            inputs.len(),
            lists.as_mut_ptr(),
            lists.len(),
            grains.as_mut_ptr(),
            grains.len(),
            queue.as_mut_ptr(),
            queue.len(),
            events.as_mut_ptr(),
            events.len(),
            order.as_mut_ptr(),
            order.len(),
            grain,
        )
    }
}

/// The number of a run, with its clock and the events done.
#[allow(clippy::too_many_arguments)]
pub fn run(
    lists: &mut [u64],
    grains: &mut [f64],
    queue: &mut [u64],
    events: &mut [f64],
    order: &mut [u8],
    rate: f64,
    budget: u32,
    clock: &mut f64,
    done: &mut u64,
) -> u64 {
    unsafe {
        fesolopi_run(
            lists.as_mut_ptr(),
            lists.len(),
            grains.as_mut_ptr(),
            grains.len(),
            queue.as_mut_ptr(),
            queue.len(),
            events.as_mut_ptr(),
            events.len(),
            order.as_mut_ptr(),
            order.len(),
            rate,
            budget,
            clock,
            done,
        )
    }
}

/// 0, 1 or 2, and how long a start's inputs, lists, grains, queue, events and order must be.
pub fn needed(lengths: [f64; 2], count: u64, room: u64, told: &mut [u64; 6]) -> u64 {
    let [inputs, lists, grains, queue, events, order] = told;
    unsafe {
        fesolopi_needed(lengths[0], lengths[1], count, room, inputs, lists, grains, queue, events, order)
    }
}

/// 0 and the root, or 5.
pub fn square_root(d: f64, root: &mut f64) -> u64 {
    unsafe { fesolopi_square_root(d, root) }
}
