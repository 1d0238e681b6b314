//! Splicebell's independent second program: document 01, and the orders of
//! document 02 that have landed, rendered plainly, one module for each section
//! or order, with no thought of speed. It shares no code with the Rattle
//! crates.
#![forbid(unsafe_code)]

pub mod catalogue;
pub mod draws;
pub mod field;
pub mod group;
pub mod hexline;
pub mod layout;
pub mod permutation;
pub mod place;
pub mod pool;
pub mod pool_count;
pub mod pool_list;
pub mod pool_move;
pub mod pool_plan;
pub mod pool_swap;
pub mod pool_text;
pub mod programs;
pub mod replay;
pub mod selfcheck;
pub mod settings;
