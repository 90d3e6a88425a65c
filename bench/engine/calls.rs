//! Calls on counts, as bytes and as lines: what the program `handover` reads and prints.

use std::fmt;

use crate::count::{Closing, Count};
use crate::refusal::Refusal;
use crate::rules::Mark;
use crate::run;
use crate::table::{self, Routine};

#[derive(Clone, Debug)]
pub enum Call {
    Begin { word: u64 },
    Step { statement: usize },
    Close,
    React { word: u64 },
    TakeOver { record: Vec<u8> },
}

/// A closed instant.
#[derive(Clone, Debug)]
pub struct Instant {
    pub closing: Closing,
    /// The marks that remain.
    pub marks: Vec<Mark>,
    /// The statements that were stepped in it, in their order, since a record was last taken over.
    pub stepped: Vec<usize>,
}

#[derive(Clone, Debug)]
pub enum Answer {
    Begun { word: u64 },
    Stepped { statement: usize },
    Closed { instant: Instant },
    Reacted { word: u64, instant: Instant },
    TookOver,
    Refused { refusal: Refusal },
}

/// What a count did on its two boards.
pub struct Relay {
    pub before: Vec<Answer>,
    pub record: Vec<u8>,
    pub after: Vec<Answer>,
}

const TITLES: [&str; 2] = [
    "from a bit board to a stamp board",
    "from a stamp board to a bit board",
];

impl Instant {
    /// What tells one instant from another: all but the order of the steps.
    fn compared(&self) -> (Closing, &[Mark], Vec<usize>) {
        (self.closing, &self.marks, sorted(&self.stepped))
    }
}

impl fmt::Display for Instant {
    fn fmt(&self, f: &mut fmt::Formatter<'_>) -> fmt::Result {
        let marks: String = self.marks.iter().map(|mark| mark.letter()).collect();
        write!(f, "{} marks {marks} stepped", self.closing)?;
        self.stepped
            .iter()
            .try_for_each(|step| write!(f, " {step}"))
    }
}

impl Answer {
    pub fn refusal(&self) -> Option<Refusal> {
        match *self {
            Answer::Refused { refusal } => Some(refusal),
            _ => None,
        }
    }

    pub fn instant(&self) -> Option<&Instant> {
        match self {
            Answer::Closed { instant } | Answer::Reacted { instant, .. } => Some(instant),
            _ => None,
        }
    }
}

impl fmt::Display for Answer {
    fn fmt(&self, f: &mut fmt::Formatter<'_>) -> fmt::Result {
        match self {
            Answer::Begun { word } => write!(f, "begin {word:016x}"),
            Answer::Stepped { statement } => write!(f, "step {statement}"),
            Answer::Closed { instant } => write!(f, "close {instant}"),
            Answer::Reacted { word, instant } => write!(f, "react {word:016x} {instant}"),
            Answer::TookOver => write!(f, "take over"),
            Answer::Refused { refusal } => write!(f, "{refusal}"),
        }
    }
}

impl Relay {
    fn instants(&self) -> impl Iterator<Item = &Instant> {
        let answers = self.before.iter().chain(&self.after);
        answers.filter_map(Answer::instant)
    }
}

impl fmt::Display for Relay {
    fn fmt(&self, f: &mut fmt::Formatter<'_>) -> fmt::Result {
        self.before
            .iter()
            .try_for_each(|answer| writeln!(f, "{answer}"))?;
        let record: String = self
            .record
            .iter()
            .map(|byte| format!("{byte:02x}"))
            .collect();
        writeln!(f, "hand over {record}")?;
        writeln!(f, "taken over")?;
        self.after
            .iter()
            .try_for_each(|answer| writeln!(f, "{answer}"))
    }
}

/// Whether the closed instants of both relays are the same.
pub fn same_instants(relays: &[Relay; 2]) -> bool {
    let [one, other] = relays;
    one.instants()
        .map(Instant::compared)
        .eq(other.instants().map(Instant::compared))
}

/// What `handover` prints of two relays.
pub fn text(relays: &[Relay; 2]) -> String {
    let relays_with_titles = TITLES.iter().zip(relays);
    let told: String = relays_with_titles
        .map(|(title, relay)| format!("{title}\n{relay}"))
        .collect();
    let verdict = match same_instants(relays) {
        true => "the same instants",
        false => "other instants",
    };
    format!("{told}{verdict}\n")
}

pub fn sorted(steps: &[usize]) -> Vec<usize> {
    let mut steps = steps.to_vec();
    steps.sort_unstable();
    steps
}

/// The statements that a react to the word steps.
fn steps_of_react(count: &Count, word: u64) -> Result<Vec<usize>, Refusal> {
    let mut count = count.clone();
    let mut stepped = Vec::new();
    count.begin(word)?;
    while let Some(statement) = count.lowest_ready() {
        count.step(statement)?;
        stepped.push(statement);
    }
    Ok(stepped)
}

/// Carries out a call, if it is not refused. `stepped` has the statements that were stepped in the
/// open instant, since a record was last taken over.
pub fn answer(count: &mut Count, stepped: &mut Vec<usize>, call: &Call) -> Answer {
    let answer = match *call {
        Call::Begin { word } => count.begin(word).map(|()| Answer::Begun { word }),
        Call::Step { statement } => count.step(statement).map(|()| {
            stepped.push(statement);
            Answer::Stepped { statement }
        }),
        Call::Close => close(count, stepped),
        Call::React { word } => react(count, word),
        Call::TakeOver { ref record } => count.take_over(record).map(|()| {
            stepped.clear();
            Answer::TookOver
        }),
    };
    answer.unwrap_or_else(|refusal| Answer::Refused { refusal })
}

fn close(count: &mut Count, stepped: &mut Vec<usize>) -> Result<Answer, Refusal> {
    let closing = count.close()?;
    let instant = Instant {
        closing,
        marks: count.state().marks.clone(),
        stepped: std::mem::take(stepped),
    };
    Ok(Answer::Closed { instant })
}

fn react(count: &mut Count, word: u64) -> Result<Answer, Refusal> {
    let stepped = steps_of_react(count, word)?;
    let closing = count.react(word)?;
    let instant = Instant {
        closing,
        marks: count.state().marks.clone(),
        stepped,
    };
    Ok(Answer::Reacted { word, instant })
}

/// Writes a list of calls: their number, and then the calls.
pub fn write(calls: &[&Call], bytes: &mut Vec<u8>) {
    bytes.extend((calls.len() as u16).to_le_bytes());
    for call in calls {
        match call {
            Call::Begin { word } => {
                bytes.push(0);
                bytes.extend(word.to_le_bytes());
            }
            Call::Step { statement } => {
                bytes.push(1);
                bytes.extend((*statement as u16).to_le_bytes());
            }
            Call::Close => bytes.push(2),
            Call::React { word } => {
                bytes.push(3);
                bytes.extend(word.to_le_bytes());
            }
            Call::TakeOver { record } => {
                bytes.push(4);
                bytes.extend((record.len() as u16).to_le_bytes());
                bytes.extend(record);
            }
        }
    }
}

/// What `handover` prints of a routine and four lists of calls.
pub fn listing(input: &[u8]) -> Option<String> {
    let mut bytes = Bytes { rest: input };
    let length = bytes.number()?;
    let routine = table::load(bytes.take(length)?).ok()?;
    let relays = [bytes.relay(&routine)?, bytes.relay(&routine)?];
    Some(text(&relays))
}

struct Bytes<'a> {
    rest: &'a [u8],
}

impl<'a> Bytes<'a> {
    fn take(&mut self, how_many: usize) -> Option<&'a [u8]> {
        let (taken, rest) = self.rest.split_at_checked(how_many)?;
        self.rest = rest;
        Some(taken)
    }

    fn number(&mut self) -> Option<usize> {
        self.take(2).map(|bytes| run::word(bytes) as usize)
    }

    fn word(&mut self) -> Option<u64> {
        self.take(8).map(run::word)
    }

    /// Carries out two lists, and hands over in between.
    fn relay(&mut self, routine: &Routine) -> Option<Relay> {
        let mut stepped = Vec::new();
        let mut count = Count::new(routine);
        let before = self.carry_out(&mut count, &mut stepped)?;
        let record = count.record();
        let mut count = Count::new(routine);
        count.take_over(&record).ok()?;
        let after = self.carry_out(&mut count, &mut stepped)?;
        Some(Relay {
            before,
            record,
            after,
        })
    }

    fn carry_out(&mut self, count: &mut Count, stepped: &mut Vec<usize>) -> Option<Vec<Answer>> {
        (0..self.number()?)
            .map(|_| Some(answer(count, stepped, &self.call()?)))
            .collect()
    }

    fn call(&mut self) -> Option<Call> {
        Some(match self.take(1)?[0] {
            0 => Call::Begin { word: self.word()? },
            1 => Call::Step {
                statement: self.number()?,
            },
            2 => Call::Close,
            3 => Call::React { word: self.word()? },
            4 => {
                let length = self.number()?;
                Call::TakeOver {
                    record: self.take(length)?.to_vec(),
                }
            }
            _ => return None,
        })
    }
}
