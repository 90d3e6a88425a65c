//! What the program `run` prints of its input.

use crate::count::Count;
use crate::front::Guides;
use crate::table;

/// How the lowest ready statement is searched for after a step.
#[derive(Clone, Copy, Debug)]
pub enum Search {
    /// From statement 0 on.
    Anew,
    /// From where something can have changed.
    Front,
}

pub const MOST_BYTES: u64 = 65_536;

pub fn listing(input: &[u8], search: Search) -> String {
    let (table, words) = split(input);
    let routine = match table::load(table) {
        Ok(routine) => routine,
        Err(refusal) => return format!("{refusal}\n"),
    };
    let guides = Guides::new(&routine);
    let mut count = Count::new(&routine);
    let mut text = String::new();
    for word in words {
        let answer = match search {
            Search::Anew => count.react(word),
            Search::Front => count.react_by_front(&guides, word),
        };
        match answer {
            Ok(closing) => text.push_str(&format!("{closing}\n")),
            Err(refusal) => {
                text.push_str(&format!("{refusal}\n"));
                break;
            }
        }
    }
    text
}

/// The table and the input words.
pub fn split(input: &[u8]) -> (&[u8], impl Iterator<Item = u64> + '_) {
    let byte = |at: usize| input.get(at).copied().unwrap_or(0);
    let length = usize::from(u16::from_le_bytes([byte(0), byte(1)]));
    let rest = input.get(2..).unwrap_or(&[]);
    let (table, words) = rest.split_at(length.min(rest.len()));
    (table, words.chunks_exact(8).map(word))
}

/// A number of some bytes, the lowest first.
pub fn word(bytes: &[u8]) -> u64 {
    bytes
        .iter()
        .rev()
        .fold(0, |word, &byte| word << 8 | u64::from(byte))
}
