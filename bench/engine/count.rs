//! A routine at work.

use std::fmt;

use crate::front::{Front, Guides};
use crate::record::{self, Standing};
use crate::refusal::Refusal;
use crate::rules::State;
use crate::signals::Signals;
use crate::table::{Routine, SignalKind};

#[derive(Clone, Copy, Debug, PartialEq, Eq)]
pub enum Phase {
    Resting,
    Open,
    Over,
}

impl Phase {
    pub fn from_byte(byte: u8) -> Option<Phase> {
        match byte {
            0 => Some(Phase::Resting),
            1 => Some(Phase::Open),
            2 => Some(Phase::Over),
            _ => None,
        }
    }

    pub fn byte(self) -> u8 {
        match self {
            Phase::Resting => 0,
            Phase::Open => 1,
            Phase::Over => 2,
        }
    }
}

#[derive(Clone, Copy, Debug, PartialEq, Eq)]
pub enum Status {
    Terminated,
    Suspended,
}

/// What the close of an instant answers.
#[derive(Clone, Copy, Debug, PartialEq, Eq)]
pub struct Closing {
    pub instant: u32,
    pub outputs: Signals,
    pub status: Status,
    pub steps: u16,
}

impl fmt::Display for Closing {
    fn fmt(&self, f: &mut fmt::Formatter<'_>) -> fmt::Result {
        let status = match self.status {
            Status::Terminated => 'T',
            Status::Suspended => 'S',
        };
        write!(
            f,
            "{} {:016x} {} {}",
            self.instant, self.outputs.0, status, self.steps
        )
    }
}

#[derive(Clone, Debug)]
pub struct Count<'r> {
    routine: &'r Routine,
    inputs: Signals,
    outputs: Signals,
    state: State,
    phase: Phase,
    closed: u32,
    steps: u16,
}

impl<'r> Count<'r> {
    pub fn new(routine: &'r Routine) -> Count<'r> {
        Count {
            routine,
            inputs: routine.signals_of_kind(SignalKind::Input),
            outputs: routine.signals_of_kind(SignalKind::Output),
            state: State::new(routine),
            phase: Phase::Resting,
            closed: 0,
            steps: 0,
        }
    }

    pub fn begin(&mut self, word: u64) -> Result<(), Refusal> {
        match self.phase {
            Phase::Open => return Err(Refusal::AlreadyOpen),
            Phase::Over => return Err(Refusal::AlreadyOver),
            Phase::Resting => {}
        }
        if self.closed == u32::MAX {
            return Err(Refusal::NoInstantLeft);
        }
        if let Some(signal) = Signals(word).without(self.inputs).lowest() {
            return Err(Refusal::NotInput { signal });
        }
        self.state.present = Signals(word);
        self.steps = 0;
        self.phase = Phase::Open;
        Ok(())
    }

    pub fn step(&mut self, statement: usize) -> Result<(), Refusal> {
        if self.phase != Phase::Open {
            return Err(Refusal::NotOpenToStep);
        }
        if statement >= self.routine.statements().len() {
            return Err(Refusal::NoSuchStatement { statement });
        }
        if !self.state.is_ready(self.routine, statement) {
            return Err(Refusal::NotReady { statement });
        }
        self.make_step(statement);
        Ok(())
    }

    pub fn close(&mut self) -> Result<Closing, Refusal> {
        if self.phase != Phase::Open {
            return Err(Refusal::NotOpenToClose);
        }
        if let Some(statement) = self.lowest_ready() {
            return Err(Refusal::StillReady { statement });
        }
        Ok(self.make_close())
    }

    pub fn react(&mut self, word: u64) -> Result<Closing, Refusal> {
        self.begin(word)?;
        while let Some(statement) = self.lowest_ready() {
            self.make_step(statement);
        }
        Ok(self.make_close())
    }

    /// React, by a search that goes on from a front.
    pub fn react_by_front(&mut self, guides: &Guides, word: u64) -> Result<Closing, Refusal> {
        self.begin(word)?;
        let mut front = Front::default();
        while let Some(statement) = front.lowest_ready(&self.state, self.routine) {
            front = front.advance(guides, &self.state, self.routine, statement);
            self.make_step(statement);
        }
        Ok(self.make_close())
    }

    /// Goes on from where a record stands.
    pub fn take_over(&mut self, bytes: &[u8]) -> Result<(), Refusal> {
        let standing = record::read(self.routine, bytes)?;
        self.phase = standing.phase;
        self.closed = standing.closed;
        self.steps = standing.steps;
        self.state = standing.state;
        Ok(())
    }

    pub fn record(&self) -> Vec<u8> {
        record::write(&Standing {
            phase: self.phase,
            closed: self.closed,
            steps: self.steps,
            state: self.state.clone(),
        })
    }

    pub fn lowest_ready(&self) -> Option<usize> {
        match self.phase {
            Phase::Open => self.state.lowest_ready(self.routine),
            Phase::Resting | Phase::Over => None,
        }
    }

    pub fn is_ready(&self, statement: usize) -> bool {
        self.phase == Phase::Open && self.state.is_ready(self.routine, statement)
    }

    pub fn phase(&self) -> Phase {
        self.phase
    }

    pub fn state(&self) -> &State {
        &self.state
    }

    fn make_step(&mut self, statement: usize) {
        self.state.step(self.routine, statement);
        self.steps = self.steps.saturating_add(1);
    }

    fn make_close(&mut self) -> Closing {
        let status = match self.state.is_over(self.routine, 0) {
            true => Status::Terminated,
            false => Status::Suspended,
        };
        self.state.end(self.routine);
        self.closed += 1;
        let closing = Closing {
            instant: self.closed,
            outputs: self.state.present.both(self.outputs),
            status,
            steps: self.steps,
        };
        self.state.present = Signals::default();
        self.steps = 0;
        self.phase = match status {
            Status::Terminated => Phase::Over,
            Status::Suspended => Phase::Resting,
        };
        closing
    }
}
