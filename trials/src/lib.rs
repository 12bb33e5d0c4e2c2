// The compiled calls on trial: against the published Rust and the model after every event, with everything
// that a hostile caller may lend, and the square root against the processor's.
pub mod calls;
pub mod differential;
pub mod equal;
pub mod figures;
pub mod guarded;
pub mod hostile;
pub mod lent;
pub mod square_roots;
pub mod starts;
pub mod walk;
