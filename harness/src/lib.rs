//! Tries the C library of door-plate guides beside the model, and measures it.
//!
//! What a call has to answer and to leave comes from the model alone.

pub mod bench;
pub mod calls;
pub mod compare;
pub mod fuzz;
pub mod generate;
pub mod library;
pub mod perform;
pub mod reference;
pub mod report;
