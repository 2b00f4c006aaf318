//! The rules: what the papers say, and what LAYOUT and TRIAL say of bytes. They use nothing of the cases and the tests.

pub mod bytes;
pub mod clock;
pub mod day;
pub mod fields;
pub mod groups;
pub mod key;
pub mod line;
pub mod quotes;
pub mod record;
pub mod refusal;
pub mod saved;
pub mod sheet;
pub mod strike;
pub mod sum;
pub mod table;
pub mod trial;
