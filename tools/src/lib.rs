//! The tools that compare two programs of the rules of paper 01, search for a
//! breach of demand 3, draw a run and measure the engine.
//! They rest on the second program; it rests on none of them.

pub mod careful;
pub mod case;
pub mod compare;
pub mod fixed;
pub mod generate;
pub mod picture;
pub mod random;
pub mod reduce;
pub mod search;
pub mod watch;
