//! The hand-over record of a count: writing it, and reading any bytes as a record of a routine.

use std::fmt;

use crate::count::Phase;
use crate::refusal::Refusal;
use crate::rules::{Mark, State};
use crate::run;
use crate::signals::Signals;
use crate::table::{Routine, Statement, MOST_STATEMENTS};

pub const BYTES: usize = MARKS + MOST_STATEMENTS;

pub const HEAD: usize = 8;
pub const HEAD_BYTES: usize = 15;
pub const MARKS: usize = HEAD + HEAD_BYTES;

/// The offsets of the fields in the head.
pub const PHASE: usize = 0;
pub const CLOSED: usize = 1;
pub const STEPS: usize = 5;
pub const PRESENT: usize = 7;

/// Where a count stands.
#[derive(Clone, Debug, PartialEq, Eq)]
pub struct Standing {
    pub phase: Phase,
    pub closed: u32,
    pub steps: u16,
    pub state: State,
}

/// Why a statement breaks its rule.
#[derive(Clone, Copy, Debug, PartialEq, Eq, PartialOrd, Ord)]
pub enum Broken {
    UnknownMark,
    RootIdle,
    MarkNotOfKind,
    Parts,
    OpenLocalOutsideAnInstant,
    OpenLocalInsideAShutOne,
    RootNotOver,
}

impl Broken {
    pub const ALL: [Broken; 7] = [
        Broken::UnknownMark,
        Broken::RootIdle,
        Broken::MarkNotOfKind,
        Broken::Parts,
        Broken::OpenLocalOutsideAnInstant,
        Broken::OpenLocalInsideAShutOne,
        Broken::RootNotOver,
    ];
}

impl fmt::Display for Broken {
    fn fmt(&self, f: &mut fmt::Formatter<'_>) -> fmt::Result {
        f.write_str(match self {
            Broken::UnknownMark => "a byte above 3",
            Broken::RootIdle => "statement 0 is idle",
            Broken::MarkNotOfKind => "the kind does not have that mark",
            Broken::Parts => "the marks of the parts do not go with it",
            Broken::OpenLocalOutsideAnInstant => "an open local, and no instant is open",
            Broken::OpenLocalInsideAShutOne => "an open local inside a shut one",
            Broken::RootNotOver => "statement 0 is not over in phase over",
        })
    }
}

/// Writes the record.
pub fn write(standing: &Standing) -> Vec<u8> {
    let marks = &standing.state.marks;
    let mut bytes = contents(marks.len());
    bytes.push(standing.phase.byte());
    bytes.extend(standing.closed.to_le_bytes());
    bytes.extend(standing.steps.to_le_bytes());
    bytes.extend(standing.state.present.0.to_le_bytes());
    bytes.extend(marks.iter().map(|mark| mark.byte()));
    bytes.resize(BYTES, 0);
    bytes
}

/// Where the bytes say that a count of the routine stands.
pub fn read(routine: &Routine, bytes: &[u8]) -> Result<Standing, Refusal> {
    let unchecked = Unchecked::read(routine, bytes)?;
    match unchecked.first_broken() {
        Some((statement, _)) => Err(Refusal::RecordMarks { statement }),
        None => Ok(unchecked.standing),
    }
}

/// How the lowest statement that breaks its rule does so, and the phase that the record says, where
/// it is the marks that are refused.
pub fn broken(routine: &Routine, bytes: &[u8]) -> Option<(Phase, Broken)> {
    let unchecked = Unchecked::read(routine, bytes).ok()?;
    let (_, broken) = unchecked.first_broken()?;
    Some((unchecked.standing.phase, broken))
}

fn contents(n: usize) -> Vec<u8> {
    [HEAD, HEAD_BYTES, MARKS, n]
        .into_iter()
        .flat_map(|number| (number as u16).to_le_bytes())
        .collect()
}

/// The head and the marks of n statements, if the form is that of a record.
fn split(bytes: &[u8], n: usize) -> Option<(&[u8], &[u8])> {
    let right = bytes.len() == BYTES
        && bytes[..HEAD] == contents(n)
        && bytes[MARKS + n..].iter().all(|&byte| byte == 0);
    right.then(|| (&bytes[HEAD..MARKS], &bytes[MARKS..MARKS + n]))
}

/// The fields of a head that nobody has checked.
struct Head {
    phase: Option<Phase>,
    closed: u32,
    steps: u16,
    present: u64,
}

impl Head {
    fn read(bytes: &[u8]) -> Head {
        Head {
            phase: Phase::from_byte(bytes[PHASE]),
            closed: run::word(&bytes[CLOSED..STEPS]) as u32,
            steps: run::word(&bytes[STEPS..PRESENT]) as u16,
            present: run::word(&bytes[PRESENT..]),
        }
    }

    /// The phase, if no field is bad, and else the offset of the first that is.
    fn check(&self, g: usize) -> Result<Phase, usize> {
        let phase = self.phase.ok_or(PHASE)?;
        let open = phase == Phase::Open;
        let stray = match open {
            true => self.present.checked_shr(g as u32).unwrap_or(0),
            false => self.present,
        };
        if open && self.closed == u32::MAX {
            return Err(CLOSED);
        }
        if !open && self.steps != 0 {
            return Err(STEPS);
        }
        if stray != 0 {
            return Err(PRESENT);
        }
        Ok(phase)
    }
}

/// A record of right form and with a right head, whose marks nobody has checked.
struct Unchecked<'a> {
    routine: &'a Routine,
    marks: &'a [u8],
    /// A byte above 3 is under way here: to other statements it is live, and neither waiting nor
    /// done.
    standing: Standing,
}

impl<'a> Unchecked<'a> {
    fn read(routine: &'a Routine, bytes: &'a [u8]) -> Result<Unchecked<'a>, Refusal> {
        let (head, marks) = split(bytes, routine.statements().len()).ok_or(Refusal::RecordForm)?;
        let head = Head::read(head);
        let phase = head
            .check(routine.signals().len())
            .map_err(|offset| Refusal::RecordHead { offset })?;
        let state = State {
            marks: marks
                .iter()
                .map(|&byte| Mark::from_byte(byte).unwrap_or(Mark::UnderWay))
                .collect(),
            present: Signals(head.present),
        };
        Ok(Unchecked {
            routine,
            marks,
            standing: Standing {
                phase,
                closed: head.closed,
                steps: head.steps,
                state,
            },
        })
    }

    fn first_broken(&self) -> Option<(usize, Broken)> {
        (0..self.marks.len()).find_map(|s| self.broken(s).map(|broken| (s, broken)))
    }

    /// How a statement breaks its rule, if it does.
    fn broken(&self, number: usize) -> Option<Broken> {
        let Some(mark) = Mark::from_byte(self.marks[number]) else {
            return Some(Broken::UnknownMark);
        };
        let Standing {
            phase, ref state, ..
        } = self.standing;
        let statement = self.routine.statement(number);
        let root = number == 0;
        let open_local = matches!(statement, Statement::Local { .. }) && mark == Mark::UnderWay;
        let rules = [
            (Broken::RootIdle, root && mark == Mark::Idle),
            (Broken::MarkNotOfKind, !has_mark(statement, mark)),
            (
                Broken::Parts,
                self.live_parts(statement) != wanted_live_parts(statement, mark),
            ),
            (
                Broken::OpenLocalOutsideAnInstant,
                open_local && phase != Phase::Open,
            ),
            (
                Broken::OpenLocalInsideAShutOne,
                open_local && state.is_inside_shut(self.routine, number),
            ),
            (
                Broken::RootNotOver,
                root && phase == Phase::Over && !state.is_over(self.routine, number),
            ),
        ];
        let first = rules.into_iter().find(|&(_, broken)| broken);
        first.map(|(rule, _)| rule)
    }

    fn live_parts(&self, statement: Statement) -> usize {
        let marks = &self.standing.state.marks;
        statement
            .parts()
            .filter(|&part| marks[part] != Mark::Idle)
            .count()
    }
}

fn has_mark(statement: Statement, mark: Mark) -> bool {
    let marks: &[Mark] = match statement {
        Statement::Nothing => &[Mark::Idle, Mark::Done],
        Statement::Stop | Statement::Emit { .. } | Statement::Wait { .. } => {
            &[Mark::Idle, Mark::Waiting, Mark::Done]
        }
        Statement::Sequence { .. } | Statement::Parallel { .. } => &[Mark::Idle, Mark::UnderWay],
        Statement::Loop { .. } | Statement::When { .. } => {
            &[Mark::Idle, Mark::Waiting, Mark::UnderWay]
        }
        Statement::Kill { .. } => &[Mark::Idle, Mark::UnderWay, Mark::Done],
        Statement::Local { .. } => &[Mark::Idle, Mark::Waiting, Mark::UnderWay, Mark::Done],
    };
    marks.contains(&mark)
}

/// How many parts of a statement are live where it has that mark.
fn wanted_live_parts(statement: Statement, mark: Mark) -> usize {
    match (statement, mark) {
        (_, Mark::Idle | Mark::Done) => 0,
        (Statement::Local { .. }, Mark::Waiting) => 1,
        (_, Mark::Waiting) => 0,
        (Statement::Parallel { .. }, Mark::UnderWay) => 2,
        (_, Mark::UnderWay) => 1,
    }
}
