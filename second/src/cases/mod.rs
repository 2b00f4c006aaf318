//! The cases: what makes input for the trial and for the sheet programs. They use the rules, and nothing of the tests.

pub mod case;
pub mod contents;
pub mod damages;
pub mod hand;
pub mod lines;
pub mod long_day;
pub mod quotes;
pub mod random;
pub mod records;
pub mod saved;
pub mod saved_damages;
pub mod saved_parts;
pub mod saved_vectors;
pub mod set;
pub mod shorthand;
pub mod sound_tables;
pub mod stream;
pub mod tables;
pub mod texts;
pub mod vectors;
