//! The program's own tests, by name: the papers' vectors first, then what follows from the rules.

use std::io::{self, Write};

use crate::rules::trial::Trial;
use crate::tests::days;
use crate::tests::lines;
use crate::tests::runs;
use crate::tests::saved;
use crate::tests::tables;
use crate::tests::vectors::{self, holds};

/// Prints a line for each test; true if none failed.
pub fn run(out: &mut impl Write) -> io::Result<bool> {
    let (mut passed, mut failed) = (0, 0);
    let mut trial = Trial::default();
    let vectors = vectors::all().into_iter().map(|vector| (vector.name, holds(&vector, &mut trial)));
    let captures = days::captures().into_iter().map(|capture| (capture.name, capture.holds()));
    let laws =
        lines::laws().into_iter().chain(runs::laws()).chain(days::laws()).chain(tables::laws()).chain(saved::laws());
    for (name, holds) in vectors.chain(captures).chain(laws.map(|(name, law)| (name, law()))) {
        writeln!(out, "{} {name}", if holds { "ok" } else { "FAILED" })?;
        *(if holds { &mut passed } else { &mut failed }) += 1;
    }
    writeln!(out, "{passed} passed, {failed} failed")?;
    Ok(failed == 0)
}
