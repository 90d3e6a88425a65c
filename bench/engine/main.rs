//! A plain engine for counting routines, and what is needed to compare another one with it.
//!
//! Without arguments it does what the program `run` does; with `front` too, but it searches for
//! the lowest ready statement from a front. `generate FOLDER SEED N` writes N inputs for `run` into
//! a folder, and `tally FOLDER N` says what happens in them. `test-orders SEED N` carries out the
//! steps of N random routines in two orders each, and `write-orders FOLDER SEED N` writes the same
//! as inputs for the program `handover`, with the outputs that are wanted. `calls` does what
//! `handover` does with such an input.

mod alter;
mod calls;
mod count;
mod damage;
mod draft;
mod front;
mod generate;
mod grow;
mod orders;
mod random;
mod record;
mod refusal;
mod rules;
mod run;
mod signals;
mod table;
mod tally;
mod totals;

use std::error::Error;
use std::io::{self, Read, Write};
use std::path::Path;

fn main() -> Result<(), Box<dyn Error>> {
    let arguments: Vec<String> = std::env::args().skip(1).collect();
    let arguments: Vec<&str> = arguments.iter().map(String::as_str).collect();
    match arguments[..] {
        [] => list(run::Search::Anew)?,
        ["front"] => list(run::Search::Front)?,
        ["generate", folder, seed, n] => {
            generate::write(Path::new(folder), seed.parse()?, n.parse()?)?
        }
        ["tally", folder, n] => tally::print(Path::new(folder), n.parse()?)?,
        ["test-orders", seed, n] => orders::test(seed.parse()?, n.parse()?)?,
        ["write-orders", folder, seed, n] => {
            orders::write(Path::new(folder), seed.parse()?, n.parse()?)?
        }
        ["calls"] => answer_calls()?,
        _ => return Err("the arguments are not known".into()),
    }
    Ok(())
}

fn list(search: run::Search) -> io::Result<()> {
    let mut input = Vec::new();
    io::stdin()
        .lock()
        .take(run::MOST_BYTES)
        .read_to_end(&mut input)?;
    io::stdout()
        .lock()
        .write_all(run::listing(&input, search).as_bytes())
}

fn answer_calls() -> Result<(), Box<dyn Error>> {
    let mut input = Vec::new();
    io::stdin().lock().read_to_end(&mut input)?;
    print!(
        "{}",
        calls::listing(&input).ok_or("the input is no table with four lists of calls")?
    );
    Ok(())
}
