//! The program's own tests. They use the cases and the rules.

pub mod check;
mod days;
mod law;
mod lines;
mod runs;
mod saved;
mod tables;
mod vectors;
