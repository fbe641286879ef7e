//! A planner in plain Rust that shares no code with the proved library, and what the benchmark needs around it.
pub mod check;
pub mod draws;
pub mod paths;
pub mod planner;
pub mod sheet;
