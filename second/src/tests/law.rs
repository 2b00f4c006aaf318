//! What a test over many values is.

/// A law that runs over many values.
pub type Law = (&'static str, fn() -> bool);
