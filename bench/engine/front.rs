//! A search for the lowest ready statement that does not begin anew after each step.
//!
//! A shut local is itself ready and has a lower number than all inside it. So the lowest statement to which one of the
//! lines on steps applies is the lowest ready one, and no look at the statements around it is needed. Beside that, a
//! step changes little: see `Front::advance`.

use crate::rules::State;
use crate::table::{Routine, Statement, MOST_SIGNALS};

/// What a search needs to know of a routine, worked out once.
#[derive(Clone, Debug)]
pub struct Guides {
    /// For each statement the nearest one above it that looks at whether a part around it is over: a loop, a kill, a
    /// local, or a sequence of which that part is the first. A step of the statement can make that one ready.
    guards: Vec<Option<usize>>,
    /// The lowest wait or when of each signal.
    waiters: Vec<Option<usize>>,
}

impl Guides {
    pub fn new(routine: &Routine) -> Guides {
        let mut guards = vec![None; routine.statements().len()];
        let mut waiters = vec![None; MOST_SIGNALS];
        for (number, statement) in routine.statements().iter().enumerate() {
            let above = guards[number];
            match *statement {
                Statement::Loop { first }
                | Statement::Kill { first, .. }
                | Statement::Local { first, .. } => guards[first] = Some(number),
                Statement::Sequence { first, second } => {
                    guards[first] = Some(number);
                    guards[second] = above;
                }
                Statement::Parallel { first, second } | Statement::When { first, second, .. } => {
                    guards[first] = above;
                    guards[second] = above;
                }
                Statement::Nothing
                | Statement::Stop
                | Statement::Emit { .. }
                | Statement::Wait { .. } => {}
            }
            if let Statement::Wait { signal } | Statement::When { signal, .. } = *statement {
                waiters[signal].get_or_insert(number);
            }
        }
        Guides { guards, waiters }
    }
}

/// Where the search goes on: below `from` no line on steps applies to any statement, but maybe to the guard.
#[derive(Clone, Copy, Debug, Default)]
pub struct Front {
    from: usize,
    guard: Option<usize>,
}

impl Front {
    pub fn lowest_ready(self, state: &State, routine: &Routine) -> Option<usize> {
        self.guard
            .filter(|&guard| guard < self.from && state.has_step(routine, guard))
            .or_else(|| {
                (self.from..routine.statements().len()).find(|&s| state.has_step(routine, s))
            })
    }

    /// The front after the step of the lowest ready statement, which is still to be made. What can be ready then that
    /// was not: what the statement begins; itself, if it is a loop or a local; a wait or a when of the signal that it
    /// raises, if that is absent so far; and its guard.
    pub fn advance(self, guides: &Guides, state: &State, routine: &Routine, number: usize) -> Front {
        let from = self.from.max(number);
        let from = match routine.statement(number) {
            Statement::Loop { .. } | Statement::Local { .. } => number,
            Statement::Sequence { second, .. } => from.min(second),
            Statement::When { first, .. } => from.min(first),
            Statement::Emit { signal } if !state.present.has(signal) => {
                from.min(guides.waiters[signal].unwrap_or(from))
            }
            Statement::Emit { .. }
            | Statement::Nothing
            | Statement::Stop
            | Statement::Wait { .. }
            | Statement::Parallel { .. }
            | Statement::Kill { .. } => from,
        };
        Front {
            from,
            guard: guides.guards[number],
        }
    }
}
