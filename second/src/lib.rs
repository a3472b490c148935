//! An independent program of the rules of paper 01: a loader for a set of
//! service descriptions, a supervisor engine, the paper's small program, a
//! scenario runner and the picture of a run. It rests on the papers alone and
//! shares no file with another part.

pub mod engine;
pub mod loader;
pub mod picture;
pub mod program;
pub mod scenario;
pub mod text;
