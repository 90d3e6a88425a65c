//! The rules: what it means to begin and to idle a statement, what is over, what is ready, what a step
//! does, and how an instant ends.

use crate::signals::Signals;
use crate::table::{Routine, Statement};

#[derive(Clone, Copy, Debug, PartialEq, Eq)]
pub enum Mark {
    Idle,
    Waiting,
    UnderWay,
    Done,
}

impl Mark {
    pub fn from_byte(byte: u8) -> Option<Mark> {
        match byte {
            0 => Some(Mark::Idle),
            1 => Some(Mark::Waiting),
            2 => Some(Mark::UnderWay),
            3 => Some(Mark::Done),
            _ => None,
        }
    }

    pub fn byte(self) -> u8 {
        match self {
            Mark::Idle => 0,
            Mark::Waiting => 1,
            Mark::UnderWay => 2,
            Mark::Done => 3,
        }
    }

    pub fn letter(self) -> char {
        match self {
            Mark::Idle => '-',
            Mark::Waiting => 'w',
            Mark::UnderWay => 'u',
            Mark::Done => 'd',
        }
    }
}

#[derive(Clone, Debug, PartialEq, Eq)]
pub struct State {
    pub marks: Vec<Mark>,
    pub present: Signals,
}

impl State {
    pub fn new(routine: &Routine) -> State {
        let marks = vec![Mark::Idle; routine.statements().len()];
        let mut state = State {
            marks,
            present: Signals::default(),
        };
        state.begin(routine, 0);
        state
    }

    fn begin(&mut self, routine: &Routine, number: usize) {
        match routine.statement(number) {
            Statement::Nothing => self.marks[number] = Mark::Done,
            Statement::Stop
            | Statement::Emit { .. }
            | Statement::Wait { .. }
            | Statement::Loop { .. }
            | Statement::When { .. } => self.marks[number] = Mark::Waiting,
            Statement::Sequence { first, .. } | Statement::Kill { first, .. } => {
                self.marks[number] = Mark::UnderWay;
                self.begin(routine, first);
            }
            Statement::Parallel { first, second } => {
                self.marks[number] = Mark::UnderWay;
                self.begin(routine, first);
                self.begin(routine, second);
            }
            Statement::Local { first, .. } => {
                self.marks[number] = Mark::Waiting;
                self.begin(routine, first);
            }
        }
    }

    fn idle(&mut self, routine: &Routine, number: usize) {
        self.marks[number] = Mark::Idle;
        for part in routine.statement(number).parts() {
            self.idle(routine, part);
        }
    }

    pub fn is_over(&self, routine: &Routine, number: usize) -> bool {
        self.marks[number] == Mark::Done
            || match routine.statement(number) {
                Statement::Parallel { first, second } => {
                    self.is_over(routine, first) && self.is_over(routine, second)
                }
                Statement::Sequence { second, .. } => self.is_over(routine, second),
                Statement::When { first, second, .. } => {
                    self.is_over(routine, first) || self.is_over(routine, second)
                }
                _ => false,
            }
    }

    pub fn lowest_ready(&self, routine: &Routine) -> Option<usize> {
        (0..self.marks.len()).find(|&s| self.is_ready(routine, s))
    }

    pub fn is_ready(&self, routine: &Routine, number: usize) -> bool {
        self.has_step(routine, number) && !self.is_inside_shut(routine, number)
    }

    /// Whether a statement lies inside a shut local.
    pub fn is_inside_shut(&self, routine: &Routine, number: usize) -> bool {
        routine.around(number).any(|s| self.is_shut(routine, s))
    }

    fn is_shut(&self, routine: &Routine, number: usize) -> bool {
        self.marks[number] == Mark::Waiting
            && matches!(routine.statement(number), Statement::Local { .. })
    }

    /// Whether one of the lines on steps applies, shut locals aside.
    pub fn has_step(&self, routine: &Routine, number: usize) -> bool {
        let mark = self.marks[number];
        match routine.statement(number) {
            Statement::Nothing | Statement::Stop | Statement::Parallel { .. } => false,
            Statement::Emit { .. } => mark == Mark::Waiting,
            Statement::Wait { signal } | Statement::When { signal, .. } => {
                mark == Mark::Waiting && self.present.has(signal)
            }
            Statement::Sequence { first, .. } | Statement::Kill { first, .. } => {
                self.is_over(routine, first)
            }
            Statement::Loop { first } => mark == Mark::Waiting || self.is_over(routine, first),
            Statement::Local { first, .. } => {
                mark == Mark::Waiting || mark == Mark::UnderWay && self.is_over(routine, first)
            }
        }
    }

    /// The step of a statement that is ready.
    pub fn step(&mut self, routine: &Routine, number: usize) {
        let waiting = self.marks[number] == Mark::Waiting;
        match routine.statement(number) {
            Statement::Emit { signal } => {
                self.present.raise(signal);
                self.marks[number] = Mark::Done;
            }
            Statement::Wait { .. } => self.marks[number] = Mark::Done,
            Statement::When { first, .. } => {
                self.marks[number] = Mark::UnderWay;
                self.begin(routine, first);
            }
            Statement::Sequence { first, second } => {
                self.idle(routine, first);
                self.begin(routine, second);
            }
            Statement::Loop { first } if waiting => {
                self.marks[number] = Mark::UnderWay;
                self.begin(routine, first);
            }
            Statement::Loop { first } => {
                self.idle(routine, first);
                self.marks[number] = Mark::Waiting;
            }
            Statement::Kill { first, .. } => {
                self.idle(routine, first);
                self.marks[number] = Mark::Done;
            }
            Statement::Local { signal, .. } if waiting => {
                self.marks[number] = Mark::UnderWay;
                self.present.drop(signal);
            }
            Statement::Local { signal, first } => {
                self.idle(routine, first);
                self.present.drop(signal);
                self.marks[number] = Mark::Done;
            }
            Statement::Nothing | Statement::Stop | Statement::Parallel { .. } => {
                unreachable!("statement {number} has no step")
            }
        }
    }

    /// The end of an instant in which nothing is ready.
    pub fn end(&mut self, routine: &Routine) {
        self.end_of(routine, 0);
    }

    fn end_of(&mut self, routine: &Routine, number: usize) {
        if self.is_over(routine, number) {
            return;
        }
        match routine.statement(number) {
            Statement::Stop => self.marks[number] = Mark::Done,
            Statement::Nothing | Statement::Emit { .. } | Statement::Wait { .. } => {}
            Statement::When { second, .. } if self.marks[number] == Mark::Waiting => {
                self.marks[number] = Mark::UnderWay;
                self.begin(routine, second);
            }
            Statement::Sequence { .. }
            | Statement::Parallel { .. }
            | Statement::Loop { .. }
            | Statement::When { .. } => self.pass_end_on(routine, number),
            Statement::Kill { signal, first } if self.present.has(signal) => {
                self.idle(routine, first);
                self.marks[number] = Mark::Done;
            }
            Statement::Kill { .. } => self.pass_end_on(routine, number),
            Statement::Local { .. } => {
                self.marks[number] = Mark::Waiting;
                self.pass_end_on(routine, number);
            }
        }
    }

    fn pass_end_on(&mut self, routine: &Routine, number: usize) {
        for part in routine.statement(number).parts() {
            if self.marks[part] != Mark::Idle {
                self.end_of(routine, part);
            }
        }
    }
}
