//! Reading a table from bytes and checking that it is a routine.

use crate::refusal::Refusal;
use crate::signals::Signals;

pub const MOST_SIGNALS: usize = 64;
pub const MOST_STATEMENTS: usize = 256;

const CONTENTS: usize = 8;
const RECORD: usize = 4;

#[derive(Clone, Copy, Debug, PartialEq, Eq)]
pub enum SignalKind {
    Input,
    Output,
    Local,
}

impl SignalKind {
    fn from_byte(byte: u8) -> Option<SignalKind> {
        match byte {
            0 => Some(SignalKind::Input),
            1 => Some(SignalKind::Output),
            2 => Some(SignalKind::Local),
            _ => None,
        }
    }
}

#[derive(Clone, Copy, Debug, PartialEq, Eq)]
pub enum Statement {
    Nothing,
    Stop,
    Emit {
        signal: usize,
    },
    Wait {
        signal: usize,
    },
    Sequence {
        first: usize,
        second: usize,
    },
    Parallel {
        first: usize,
        second: usize,
    },
    Loop {
        first: usize,
    },
    When {
        signal: usize,
        first: usize,
        second: usize,
    },
    Kill {
        signal: usize,
        first: usize,
    },
    Local {
        signal: usize,
        first: usize,
    },
}

impl Statement {
    pub fn kind(self) -> usize {
        match self {
            Statement::Nothing => 0,
            Statement::Stop => 1,
            Statement::Emit { .. } => 2,
            Statement::Wait { .. } => 3,
            Statement::Sequence { .. } => 4,
            Statement::Parallel { .. } => 5,
            Statement::Loop { .. } => 6,
            Statement::When { .. } => 7,
            Statement::Kill { .. } => 8,
            Statement::Local { .. } => 9,
        }
    }

    pub fn parts(self) -> impl Iterator<Item = usize> {
        let (first, second) = match self {
            Statement::Nothing
            | Statement::Stop
            | Statement::Emit { .. }
            | Statement::Wait { .. } => (None, None),
            Statement::Loop { first }
            | Statement::Kill { first, .. }
            | Statement::Local { first, .. } => (Some(first), None),
            Statement::Sequence { first, second }
            | Statement::Parallel { first, second }
            | Statement::When { first, second, .. } => (Some(first), Some(second)),
        };
        first.into_iter().chain(second)
    }

    fn from_record(
        record: &[u8],
        number: usize,
        signals: usize,
        statements: usize,
    ) -> Option<Statement> {
        let signal = |byte: u8| Some(usize::from(byte)).filter(|&s| s < signals);
        let part = |byte: u8| Some(usize::from(byte)).filter(|&p| number < p && p < statements);
        Some(match *record {
            [0, 0, 0, 0] => Statement::Nothing,
            [1, 0, 0, 0] => Statement::Stop,
            [2, s, 0, 0] => Statement::Emit { signal: signal(s)? },
            [3, s, 0, 0] => Statement::Wait { signal: signal(s)? },
            [4, 0, a, b] => Statement::Sequence {
                first: part(a)?,
                second: part(b)?,
            },
            [5, 0, a, b] => Statement::Parallel {
                first: part(a)?,
                second: part(b)?,
            },
            [6, 0, a, 0] => Statement::Loop { first: part(a)? },
            [7, s, a, b] => Statement::When {
                signal: signal(s)?,
                first: part(a)?,
                second: part(b)?,
            },
            [8, s, a, 0] => Statement::Kill {
                signal: signal(s)?,
                first: part(a)?,
            },
            [9, s, a, 0] => Statement::Local {
                signal: signal(s)?,
                first: part(a)?,
            },
            _ => return None,
        })
    }
}

/// What passed the first three tests.
#[derive(Clone, Debug)]
pub struct Table {
    signals: Vec<SignalKind>,
    statements: Vec<Statement>,
}

/// What passed all seven tests.
#[derive(Clone, Debug)]
pub struct Routine {
    table: Table,
    parents: Vec<Option<usize>>,
}

pub fn load(bytes: &[u8]) -> Result<Routine, Refusal> {
    read(bytes).and_then(check)
}

pub fn read(bytes: &[u8]) -> Result<Table, Refusal> {
    let (kinds, records) = split(bytes).ok_or(Refusal::Form)?;
    let signals = kinds
        .iter()
        .enumerate()
        .map(|(signal, &kind)| SignalKind::from_byte(kind).ok_or(Refusal::SignalKind { signal }))
        .collect::<Result<Vec<_>, _>>()?;
    let n = records.len() / RECORD;
    let statements = records
        .chunks_exact(RECORD)
        .enumerate()
        .map(|(statement, record)| {
            Statement::from_record(record, statement, signals.len(), n)
                .ok_or(Refusal::Record { statement })
        })
        .collect::<Result<Vec<_>, _>>()?;
    Ok(Table {
        signals,
        statements,
    })
}

/// The kinds of the signals and the records, if the contents and the length are right.
fn split(bytes: &[u8]) -> Option<(&[u8], &[u8])> {
    let (contents, rest) = bytes.split_at_checked(CONTENTS)?;
    let number = |at: usize| usize::from(u16::from_le_bytes([contents[at], contents[at + 1]]));
    let (signals_place, g, statements_place, n) = (number(0), number(2), number(4), number(6));
    let right = signals_place == CONTENTS
        && g <= MOST_SIGNALS
        && statements_place == CONTENTS + g
        && (1..=MOST_STATEMENTS).contains(&n)
        && rest.len() == g + RECORD * n;
    right.then(|| rest.split_at(g))
}

pub fn check(table: Table) -> Result<Routine, Refusal> {
    let numbers = 0..table.statements.len();
    if let Some(statement) = numbers.clone().skip(1).find(|&s| table.times_named(s) != 1) {
        return Err(Refusal::Parts { statement });
    }
    let parents = table.parents();
    let routine = Routine { table, parents };
    if let Some(statement) = numbers.clone().find(|&s| routine.table.misuses_signal(s)) {
        return Err(Refusal::SignalUse { statement });
    }
    if let Some(statement) = numbers.clone().find(|&s| routine.is_out_of_scope(s)) {
        return Err(Refusal::Scope { statement });
    }
    if let Some(statement) = numbers.clone().find(|&s| routine.table.is_endless_loop(s)) {
        return Err(Refusal::EndlessLoop { statement });
    }
    Ok(routine)
}

impl Table {
    fn times_named(&self, number: usize) -> usize {
        self.statements
            .iter()
            .flat_map(|s| s.parts())
            .filter(|&part| part == number)
            .count()
    }

    fn parents(&self) -> Vec<Option<usize>> {
        let mut parents = vec![None; self.statements.len()];
        for (number, statement) in self.statements.iter().enumerate() {
            for part in statement.parts() {
                parents[part] = Some(number);
            }
        }
        parents
    }

    fn misuses_signal(&self, number: usize) -> bool {
        match self.statements[number] {
            Statement::Emit { signal } => self.signals[signal] == SignalKind::Input,
            Statement::Local { signal, .. } => self.signals[signal] != SignalKind::Local,
            _ => false,
        }
    }

    fn is_endless_loop(&self, number: usize) -> bool {
        match self.statements[number] {
            Statement::Loop { first } => self.can_end_at_once(first),
            _ => false,
        }
    }

    fn can_end_at_once(&self, number: usize) -> bool {
        match self.statements[number] {
            Statement::Nothing | Statement::Emit { .. } | Statement::Wait { .. } => true,
            Statement::Stop | Statement::Loop { .. } => false,
            Statement::Sequence { first, second } | Statement::Parallel { first, second } => {
                self.can_end_at_once(first) && self.can_end_at_once(second)
            }
            Statement::When { first, .. }
            | Statement::Kill { first, .. }
            | Statement::Local { first, .. } => self.can_end_at_once(first),
        }
    }
}

impl Routine {
    pub fn statement(&self, number: usize) -> Statement {
        self.table.statements[number]
    }

    pub fn statements(&self) -> &[Statement] {
        &self.table.statements
    }

    pub fn signals(&self) -> &[SignalKind] {
        &self.table.signals
    }

    pub fn signals_of_kind(&self, kind: SignalKind) -> Signals {
        (0..self.signals().len())
            .filter(|&s| self.signals()[s] == kind)
            .collect()
    }

    /// The statements that a statement lies inside, from the nearest to statement 0.
    pub fn around(&self, number: usize) -> impl Iterator<Item = usize> + '_ {
        std::iter::successors(self.parents[number], |&s| self.parents[s])
    }

    fn is_out_of_scope(&self, number: usize) -> bool {
        match self.statement(number) {
            Statement::Emit { signal }
            | Statement::Wait { signal }
            | Statement::When { signal, .. }
            | Statement::Kill { signal, .. } => {
                self.signals()[signal] == SignalKind::Local
                    && !self.around(number).any(|s| self.is_local_of(s, signal))
            }
            Statement::Local { signal, .. } => (0..number).any(|s| self.is_local_of(s, signal)),
            _ => false,
        }
    }

    fn is_local_of(&self, number: usize, wanted: usize) -> bool {
        matches!(self.statement(number), Statement::Local { signal, .. } if signal == wanted)
    }
}
