//! The second program of Skurzelt, written from the papers alone: two independent readings of them can be compared.

mod cases;
mod rules;
mod tests;

use std::env;
use std::io::{self, BufReader, BufWriter, Write};
use std::process::ExitCode;

use crate::cases::long_day;
use crate::cases::set;
use crate::cases::stream;
use crate::cases::vectors;
use crate::rules::day::MOST;
use crate::rules::quotes::MOST_ROWS;
use crate::rules::sheet;
use crate::rules::trial;
use crate::tests::check;

const USAGE: &str = "\
usage: second sheet < CAPTURE | second stream SEED COUNT | second day SEED COUNT | second alone SEED COUNT ORDERS |
       second quotes SEED COUNT ROWS | second trial < CASES | second cases SEED COUNT | second random SEED COUNT |
       second saved SEED COUNT | second vectors | second check";
const BUFFER: usize = 1 << 16;

fn main() -> ExitCode {
    let words: Vec<_> = env::args_os().skip(1).collect();
    let words: Vec<_> = words.iter().map(|word| word.to_str().unwrap_or_default()).collect();
    let mut output = BufWriter::with_capacity(BUFFER, io::stdout().lock());
    match command(&words, &mut output).and_then(|code| output.flush().map(|()| code)) {
        Ok(code) => code,
        Err(error) => {
            eprintln!("second: {error}");
            ExitCode::FAILURE
        }
    }
}

fn command(words: &[&str], output: &mut impl Write) -> io::Result<ExitCode> {
    match *words {
        ["sheet"] => {
            let mut input = BufReader::with_capacity(BUFFER, io::stdin().lock());
            sheet::run(&mut input, output)?;
        }
        ["stream", seed, count] => {
            let (Ok(seed), Ok(count)) = (seed.parse(), count.parse()) else { return Ok(usage()) };
            stream::write(seed, count, output)?;
        }
        ["day", seed, count] => {
            let (Ok(seed), Ok(count)) = (seed.parse(), count.parse()) else { return Ok(usage()) };
            long_day::write(seed, count, output)?;
        }
        ["alone", seed, count, orders] => {
            let (Ok(seed), Ok(count), Ok(orders)) = (seed.parse(), count.parse(), orders.parse()) else {
                return Ok(usage());
            };
            if !(1..=MOST).contains(&orders) {
                return Ok(usage());
            }
            long_day::write_alone(seed, count, orders, output)?;
        }
        ["quotes", seed, count, rows] => {
            let (Ok(seed), Ok(count), Ok(rows)) = (seed.parse(), count.parse(), rows.parse()) else {
                return Ok(usage());
            };
            if !(1..=MOST_ROWS).contains(&rows) {
                return Ok(usage());
            }
            long_day::write_quotes(seed, count, rows, output)?;
        }
        ["trial"] => {
            let mut input = BufReader::with_capacity(BUFFER, io::stdin().lock());
            trial::run(&mut input, output)?;
        }
        ["cases", seed, count] => {
            let (Ok(seed), Ok(count)) = (seed.parse(), count.parse()) else { return Ok(usage()) };
            set::write(seed, count, output)?;
        }
        ["random", seed, count] => {
            let (Ok(seed), Ok(count)) = (seed.parse(), count.parse()) else { return Ok(usage()) };
            set::write_random(seed, count, output)?;
        }
        ["saved", seed, count] => {
            let (Ok(seed), Ok(count)) = (seed.parse(), count.parse()) else { return Ok(usage()) };
            set::write_saved(seed, count, output)?;
        }
        ["vectors"] => vectors::write(output)?,
        ["check"] => {
            if !check::run(output)? {
                return Ok(ExitCode::FAILURE);
            }
        }
        _ => return Ok(usage()),
    }
    Ok(ExitCode::SUCCESS)
}

fn usage() -> ExitCode {
    eprintln!("{USAGE}");
    ExitCode::from(2)
}
