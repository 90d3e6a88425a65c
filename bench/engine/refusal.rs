//! The refusals, with their numbers and places.

use std::fmt;

#[derive(Clone, Copy, Debug, PartialEq, Eq)]
pub enum Refusal {
    Form,
    SignalKind { signal: usize },
    Record { statement: usize },
    Parts { statement: usize },
    SignalUse { statement: usize },
    Scope { statement: usize },
    EndlessLoop { statement: usize },
    AlreadyOpen,
    AlreadyOver,
    NoInstantLeft,
    NotInput { signal: usize },
    NotOpenToStep,
    NoSuchStatement { statement: usize },
    NotReady { statement: usize },
    NotOpenToClose,
    StillReady { statement: usize },
    RecordForm,
    RecordHead { offset: usize },
    RecordMarks { statement: usize },
}

impl Refusal {
    pub fn number(self) -> u8 {
        match self {
            Refusal::Form => 11,
            Refusal::SignalKind { .. } => 12,
            Refusal::Record { .. } => 13,
            Refusal::Parts { .. } => 21,
            Refusal::SignalUse { .. } => 22,
            Refusal::Scope { .. } => 23,
            Refusal::EndlessLoop { .. } => 24,
            Refusal::AlreadyOpen => 31,
            Refusal::AlreadyOver => 32,
            Refusal::NoInstantLeft => 33,
            Refusal::NotInput { .. } => 34,
            Refusal::NotOpenToStep => 41,
            Refusal::NoSuchStatement { .. } => 42,
            Refusal::NotReady { .. } => 43,
            Refusal::NotOpenToClose => 51,
            Refusal::StillReady { .. } => 52,
            Refusal::RecordForm => 61,
            Refusal::RecordHead { .. } => 62,
            Refusal::RecordMarks { .. } => 63,
        }
    }

    pub fn place(self) -> usize {
        match self {
            Refusal::Form
            | Refusal::AlreadyOpen
            | Refusal::AlreadyOver
            | Refusal::NoInstantLeft
            | Refusal::NotOpenToStep
            | Refusal::NotOpenToClose
            | Refusal::RecordForm => 0,
            Refusal::SignalKind { signal } | Refusal::NotInput { signal } => signal,
            Refusal::RecordHead { offset } => offset,
            Refusal::Record { statement }
            | Refusal::Parts { statement }
            | Refusal::SignalUse { statement }
            | Refusal::Scope { statement }
            | Refusal::EndlessLoop { statement }
            | Refusal::NoSuchStatement { statement }
            | Refusal::NotReady { statement }
            | Refusal::StillReady { statement }
            | Refusal::RecordMarks { statement } => statement,
        }
    }
}

impl fmt::Display for Refusal {
    fn fmt(&self, f: &mut fmt::Formatter<'_>) -> fmt::Result {
        write!(f, "refused {} {}", self.number(), self.place())
    }
}
