// Document 01 as a second program: plain numbers in plain lists, written from its rules and the decided
// readings, to be compared with the published Rust and with the proved port.
pub mod acts;
pub mod facts;
pub mod grid;
pub mod plan;
pub mod run;
pub mod state;
pub mod step;
