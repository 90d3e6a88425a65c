//! A table that nobody has checked: kinds of signals and records as plain bytes, right or wrong.

use crate::table::{SignalKind, Statement};

pub const SIGNAL: usize = 1;
pub const FIRST: usize = 2;
pub const SECOND: usize = 3;

/// Which of signal, first and second each kind has.
const HAS: [[bool; 3]; 10] = [
    [false, false, false],
    [false, false, false],
    [true, false, false],
    [true, false, false],
    [false, true, true],
    [false, true, true],
    [false, true, false],
    [true, true, true],
    [true, true, false],
    [true, true, false],
];

#[derive(Clone, Debug)]
pub struct Draft {
    pub signals: Vec<u8>,
    pub records: Vec<[u8; 4]>,
}

pub fn has(kind: u8, field: usize) -> bool {
    HAS.get(usize::from(kind))
        .is_some_and(|fields| fields[field - 1])
}

pub fn signal_byte(kind: SignalKind) -> u8 {
    match kind {
        SignalKind::Input => 0,
        SignalKind::Output => 1,
        SignalKind::Local => 2,
    }
}

pub fn record(statement: Statement) -> [u8; 4] {
    let [signal, first, second] = match statement {
        Statement::Nothing | Statement::Stop => [0, 0, 0],
        Statement::Emit { signal } | Statement::Wait { signal } => [signal, 0, 0],
        Statement::Sequence { first, second } | Statement::Parallel { first, second } => {
            [0, first, second]
        }
        Statement::Loop { first } => [0, first, 0],
        Statement::When {
            signal,
            first,
            second,
        } => [signal, first, second],
        Statement::Kill { signal, first } | Statement::Local { signal, first } => {
            [signal, first, 0]
        }
    };
    [
        statement.kind() as u8,
        signal as u8,
        first as u8,
        second as u8,
    ]
}

impl Draft {
    pub fn bytes(&self) -> Vec<u8> {
        let (g, n) = (self.signals.len(), self.records.len());
        let mut bytes = Vec::with_capacity(8 + g + 4 * n);
        for number in [8, g, 8 + g, n] {
            bytes.extend((number as u16).to_le_bytes());
        }
        bytes.extend(&self.signals);
        bytes.extend(self.records.concat());
        bytes
    }

    pub fn signals_of(&self, kind: SignalKind) -> Vec<usize> {
        let byte = signal_byte(kind);
        (0..self.signals.len())
            .filter(|&s| self.signals[s] == byte)
            .collect()
    }

    pub fn statements_of(&self, kind: u8) -> Vec<usize> {
        (0..self.records.len())
            .filter(|&s| self.records[s][0] == kind)
            .collect()
    }

    pub fn parts(&self, number: usize) -> Vec<usize> {
        let record = self.records[number];
        [FIRST, SECOND]
            .into_iter()
            .filter(|&field| has(record[0], field))
            .map(|field| usize::from(record[field]))
            .collect()
    }

    /// A statement with a lower number that names this one.
    pub fn parent(&self, number: usize) -> Option<usize> {
        (0..number.min(self.records.len())).find(|&s| self.parts(s).contains(&number))
    }

    pub fn around(&self, number: usize) -> Vec<usize> {
        std::iter::successors(self.parent(number), |&s| self.parent(s)).collect()
    }

    /// The statements inside a statement, and itself.
    pub fn within(&self, number: usize) -> Vec<usize> {
        (number..self.records.len())
            .filter(|&s| s == number || self.around(s).contains(&number))
            .collect()
    }
}
