//! What happens in inputs for `run`: totals that show whether they put an engine to the test.

use std::collections::BTreeSet;
use std::fs;
use std::io;
use std::path::Path;

use crate::count::{Closing, Count, Status};
use crate::rules::Mark;
use crate::run;
use crate::signals::Signals;
use crate::table::{self, Routine, Statement};

const KINDS: [&str; 10] = [
    "nothing", "stop", "emit", "wait", "sequence", "parallel", "loop", "when", "kill", "local",
];

#[derive(Default)]
pub struct Tally {
    routines: u64,
    in_preorder: u64,
    sizes: BTreeSet<usize>,
    numbers_of_signals: BTreeSet<usize>,
    largest: u64,
    statements: [u64; 10],
    begun: [u64; 10],
    stepped: [u64; 10],
    instants: u64,
    steps: u64,
    with_several_steps: u64,
    with_ten_steps: u64,
    most_steps: u64,
    terminated: u64,
    served_by_emits: u64,
    then_taken: u64,
    else_taken: u64,
    kills_that_cut: u64,
    cut_statements: u64,
    kills_whose_body_ended: u64,
    locals_opened: u64,
    locals_reborn: u64,
    locals_reborn_after_signal: u64,
    loops_gone_round: u64,
}

/// What was seen of the instant that is open.
struct Instant {
    word: Signals,
    opened: Signals,
    /// The local signals that a local statement dropped when they were present.
    dropped: Signals,
}

pub fn print(folder: &Path, how_many: u64) -> io::Result<()> {
    let mut tally = Tally::default();
    for index in 0..how_many {
        let input = fs::read(folder.join(format!("{index:06}")))?;
        tally.take(&input[..input.len().min(run::MOST_BYTES as usize)]);
    }
    tally.print();
    Ok(())
}

impl Tally {
    fn take(&mut self, input: &[u8]) {
        let (table, words) = run::split(input);
        let Ok(routine) = table::load(table) else {
            return;
        };
        self.take_routine(&routine);
        let mut count = Count::new(&routine);
        let mut by_react = count.clone();
        self.take_begun(
            &routine,
            &vec![Mark::Idle; routine.statements().len()],
            &count,
        );
        for word in words {
            let closing = self.take_instant(&routine, &mut count, word);
            assert_eq!(
                closing,
                by_react.react(word).ok(),
                "react and the calls one by one agree"
            );
            assert_eq!(
                count.state(),
                by_react.state(),
                "react and the calls one by one agree"
            );
            if closing.is_none() {
                break;
            }
        }
    }

    fn take_routine(&mut self, routine: &Routine) {
        let (g, n) = (routine.signals().len(), routine.statements().len());
        self.routines += 1;
        self.in_preorder += u64::from(is_in_preorder(routine));
        self.sizes.insert(n);
        self.numbers_of_signals.insert(g);
        self.largest += u64::from(g == 64 && n == 256);
        for statement in routine.statements() {
            self.statements[statement.kind()] += 1;
        }
    }

    fn take_instant(&mut self, routine: &Routine, count: &mut Count, word: u64) -> Option<Closing> {
        count.begin(word).ok()?;
        let word = Signals(word);
        let mut instant = Instant {
            word,
            opened: Signals::default(),
            dropped: Signals::default(),
        };
        while let Some(number) = count.lowest_ready() {
            self.take_step(routine, count, &mut instant, number);
            let before = count.state().marks.clone();
            count.step(number).expect("what is ready can be stepped");
            self.take_begun(routine, &before, count);
        }
        let before = count.state().marks.clone();
        let present = count.state().present;
        let closing = count.close().expect("nothing is ready");
        self.take_begun(routine, &before, count);
        self.take_end(routine, &before, present, count);
        self.take_closing(&closing);
        Some(closing)
    }

    fn take_step(
        &mut self,
        routine: &Routine,
        count: &Count,
        instant: &mut Instant,
        number: usize,
    ) {
        let state = count.state();
        let waiting = state.marks[number] == Mark::Waiting;
        let statement = routine.statement(number);
        self.stepped[statement.kind()] += 1;
        match statement {
            Statement::Wait { signal } => {
                self.served_by_emits += u64::from(!instant.word.has(signal))
            }
            Statement::When { signal, .. } => {
                self.then_taken += 1;
                self.served_by_emits += u64::from(!instant.word.has(signal));
            }
            Statement::Loop { .. } => self.loops_gone_round += u64::from(!waiting),
            Statement::Kill { .. } => self.kills_whose_body_ended += 1,
            Statement::Local { signal, .. } if waiting => {
                self.locals_opened += 1;
                self.locals_reborn += u64::from(instant.opened.has(signal));
                self.locals_reborn_after_signal += u64::from(instant.dropped.has(signal));
                instant.opened.raise(signal);
            }
            Statement::Local { signal, .. } if state.present.has(signal) => {
                instant.dropped.raise(signal)
            }
            _ => {}
        }
    }

    /// The statements that were idle before and are not now.
    fn take_begun(&mut self, routine: &Routine, before: &[Mark], count: &Count) {
        for (number, &after) in count.state().marks.iter().enumerate() {
            if before[number] == Mark::Idle && after != Mark::Idle {
                self.begun[routine.statement(number).kind()] += 1;
            }
        }
    }

    fn take_end(&mut self, routine: &Routine, before: &[Mark], present: Signals, count: &Count) {
        let after = &count.state().marks;
        for (number, &statement) in routine.statements().iter().enumerate() {
            match statement {
                Statement::When { .. }
                    if before[number] == Mark::Waiting && after[number] == Mark::UnderWay =>
                {
                    self.else_taken += 1;
                }
                Statement::Kill { signal, .. }
                    if before[number] == Mark::UnderWay && after[number] == Mark::Done =>
                {
                    assert!(present.has(signal), "only a present signal kills");
                    self.kills_that_cut += 1;
                    self.cut_statements += live_inside(routine, before, number);
                }
                _ => {}
            }
        }
    }

    fn take_closing(&mut self, closing: &Closing) {
        let steps = u64::from(closing.steps);
        self.instants += 1;
        self.steps += steps;
        self.with_several_steps += u64::from(steps >= 2);
        self.with_ten_steps += u64::from(steps >= 10);
        self.most_steps = self.most_steps.max(steps);
        self.terminated += u64::from(closing.status == Status::Terminated);
    }

    fn print(&self) {
        let lines = [
            ("routines", self.routines),
            ("routines numbered in preorder", self.in_preorder),
            ("different sizes, of 256", self.sizes.len() as u64),
            (
                "different numbers of signals, of 65",
                self.numbers_of_signals.len() as u64,
            ),
            ("routines with 256 statements and 64 signals", self.largest),
            ("instants", self.instants),
            ("steps", self.steps),
            ("instants with 2 steps or more", self.with_several_steps),
            ("instants with 10 steps or more", self.with_ten_steps),
            ("most steps in an instant", self.most_steps),
            ("routines that ended", self.terminated),
            (
                "waits and whens served by an emit of the same instant",
                self.served_by_emits,
            ),
            ("whens that took the then", self.then_taken),
            ("whens that took the else", self.else_taken),
            ("kills that cut", self.kills_that_cut),
            ("live statements that kills cut", self.cut_statements),
            ("kills whose body ended", self.kills_whose_body_ended),
            ("locals opened", self.locals_opened),
            (
                "locals opened again in the same instant",
                self.locals_reborn,
            ),
            (
                "of these, after the signal had been present",
                self.locals_reborn_after_signal,
            ),
            ("loops gone round", self.loops_gone_round),
        ];
        for (what, number) in lines {
            println!("{number:>10} {what}");
        }
        println!(
            "{:>10} {:>10} {:>10} kind",
            "statements", "begun", "stepped"
        );
        for (kind, name) in KINDS.iter().enumerate() {
            println!(
                "{:>10} {:>10} {:>10} {name}",
                self.statements[kind], self.begun[kind], self.stepped[kind]
            );
        }
    }
}

fn is_in_preorder(routine: &Routine) -> bool {
    let mut next = vec![0];
    for number in 0..routine.statements().len() {
        if next.pop() != Some(number) {
            return false;
        }
        let parts: Vec<usize> = routine.statement(number).parts().collect();
        next.extend(parts.into_iter().rev());
    }
    true
}

fn live_inside(routine: &Routine, marks: &[Mark], number: usize) -> u64 {
    routine
        .statement(number)
        .parts()
        .map(|part| u64::from(marks[part] != Mark::Idle) + live_inside(routine, marks, part))
        .sum()
}
