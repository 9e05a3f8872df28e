//! The run of docs/SCOPE.md and its choices, read independently of our definitions and of the Rust's own functions: no hint is read,
//! no walk is left early, no state is kept but what is lent.

pub mod draws;
pub mod fits;
pub mod record;
pub mod run;
pub mod stages;
