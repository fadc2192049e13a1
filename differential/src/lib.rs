//! What the test bed has without the original: traces, their replay, and document 01
//! read a second time. README.md says more.

pub mod dump;
pub mod listing;
pub mod memory;
pub mod paper;
pub mod replay;
pub mod slips;
pub mod state;
pub mod stored;
pub mod trace;
