//! The supervisor core of paper 01: the table and state it works on, list 24,
//! the events, the nine rules of the next action, and the public calls.

pub mod calls;
pub mod events;
pub mod list24;
pub mod rules;
pub mod types;

pub use calls::{
    clock, end, next_action, query, refused_by_list_24, run_to_quiet, start, stop, stop_all,
};
pub use types::*;
