//! Two orders of steps for the same routine and the same words. The closings must not tell them
//! apart.

use std::fs;
use std::io;
use std::path::Path;

use crate::alter;
use crate::calls::{self, answer, sorted, Answer, Call, Relay};
use crate::count::{Closing, Count, Phase};
use crate::draft::Draft;
use crate::generate;
use crate::grow;
use crate::random::Random;
use crate::record;
use crate::rules::State;
use crate::run;
use crate::signals::Signals;
use crate::table::{self, Routine, SignalKind};
use crate::totals::Totals;

/// For each list of words, so that all of an input is read.
const MOST_CALL_BYTES: usize = 12_000;
const MOST_RECORD_BYTES: usize = 12_000;

/// What react answers, and the steps that it makes.
pub struct Reaction {
    pub closing: Closing,
    pub steps: Vec<usize>,
}

/// A call, where the count stood before it, and the answer.
pub struct Told {
    pub phase: Phase,
    pub call: Call,
    pub answer: Answer,
    /// The call leads elsewhere, is made there, or leads back.
    pub elsewhere: bool,
}

/// A list of calls with what is to be answered.
pub struct Course {
    pub told: Vec<Told>,
    /// The steps of each instant, but for those by react.
    pub steps: Vec<Option<Vec<usize>>>,
    /// How many calls come before the hand-over.
    before: usize,
    pub phase_of_hand_over: Phase,
    record: Vec<u8>,
    last: State,
}

pub struct Case {
    draft: Draft,
    pub routine: Routine,
    pub reactions: Vec<Reaction>,
    pub courses: [Course; 2],
}

/// Carries out both orders of each case on this engine, prints what was met, and says what was not.
pub fn test(seed: u64, how_many: u64) -> Result<(), String> {
    let mut totals = Totals::default();
    for index in 0..how_many {
        let case = case(seed, index);
        case.test(index);
        totals.take(&case);
    }
    totals.print();
    totals.all_met()
}

/// Writes for each case an input of calls and the output that is wanted.
pub fn write(folder: &Path, seed: u64, how_many: u64) -> io::Result<()> {
    for index in 0..how_many {
        let case = case(seed, index);
        fs::write(folder.join(format!("{index:06}.input")), case.input())?;
        fs::write(
            folder.join(format!("{index:06}.output")),
            calls::text(&case.relays()),
        )?;
    }
    Ok(())
}

fn case(seed: u64, index: u64) -> Case {
    let random = &mut Random::new(seed, index);
    let draft = grow::routine(random);
    let routine = table::load(&draft.bytes()).expect("what grows is a routine");
    let how_many = random.between(1, 20);
    let inputs = routine.signals_of_kind(SignalKind::Input);
    let (words, reactions) =
        words_with_reactions(&routine, generate::words(random, inputs, how_many));
    let courses = [(); 2].map(|()| course(random, &routine, inputs, &words));
    Case {
        draft,
        routine,
        reactions,
        courses,
    }
}

/// The words up to the end of the routine, or as many as fit.
fn words_with_reactions(routine: &Routine, mut words: Vec<u64>) -> (Vec<u64>, Vec<Reaction>) {
    let mut count = Count::new(routine);
    let mut reactions = Vec::new();
    let mut bytes = 0;
    for &word in &words {
        if count.phase() == Phase::Over || bytes > MOST_CALL_BYTES {
            break;
        }
        count.begin(word).expect("the word has only inputs");
        let mut steps = Vec::new();
        while let Some(statement) = count.lowest_ready() {
            count.step(statement).expect("what is ready can be stepped");
            steps.push(statement);
        }
        let closing = count.close().expect("nothing is ready");
        bytes += 10 + 3 * steps.len();
        reactions.push(Reaction { closing, steps });
    }
    words.truncate(reactions.len());
    (words, reactions)
}

fn course(random: &mut Random, routine: &Routine, inputs: Signals, words: &[u64]) -> Course {
    let takes_over = random.chance(40);
    let mut driver = Driver {
        random,
        routine,
        inputs,
        count: Count::new(routine),
        stepped: Vec::new(),
        told: Vec::new(),
        elsewhere: false,
        takes_over,
        earlier: Vec::new(),
        record_bytes: 0,
    };
    let steps = words.iter().map(|&word| driver.instant(word)).collect();
    for _ in 0..driver.random.below(6) {
        driver.put_in();
    }
    let before = driver.random.between(0, driver.told.len());
    let Driver { count, told, .. } = driver;
    let handed_over = after(routine, &told[..before]);
    Course {
        told,
        steps,
        before,
        phase_of_hand_over: handed_over.phase(),
        record: handed_over.record(),
        last: count.state().clone(),
    }
}

/// The count after some calls.
fn after<'r>(routine: &'r Routine, told: &[Told]) -> Count<'r> {
    let mut count = Count::new(routine);
    for told in told {
        answer(&mut count, &mut Vec::new(), &told.call);
    }
    count
}

/// Draws calls and carries them out.
struct Driver<'a, 'r> {
    random: &'a mut Random,
    routine: &'r Routine,
    inputs: Signals,
    count: Count<'r>,
    /// The statements that were stepped in the open instant, since a record was last taken over.
    stepped: Vec<usize>,
    told: Vec<Told>,
    elsewhere: bool,
    /// Whether records are given that are taken over.
    takes_over: bool,
    /// Records of where the count stood.
    earlier: Vec<Vec<u8>>,
    record_bytes: usize,
}

impl Driver<'_, '_> {
    /// Carries out an instant and gives its steps, if it was not by react.
    fn instant(&mut self, word: u64) -> Option<Vec<usize>> {
        self.perhaps_put_in();
        if self.random.chance(20) {
            self.carry_out(Call::React { word });
            return None;
        }
        self.carry_out(Call::Begin { word });
        let mut steps = Vec::new();
        while let Some(statement) = self.any_ready() {
            self.perhaps_put_in();
            self.carry_out(Call::Step { statement });
            steps.push(statement);
        }
        self.perhaps_put_in();
        self.carry_out(Call::Close);
        Some(steps)
    }

    fn any_ready(&mut self) -> Option<usize> {
        let ready: Vec<usize> = (0..self.routine.statements().len())
            .filter(|&s| self.count.is_ready(s))
            .collect();
        self.random.pick(&ready)
    }

    fn carry_out(&mut self, call: Call) {
        if self.random.chance(15) {
            self.earlier.push(self.count.record());
        }
        let phase = self.count.phase();
        let answer = answer(&mut self.count, &mut self.stepped, &call);
        self.tell(phase, call, answer);
    }

    fn tell(&mut self, phase: Phase, call: Call, answer: Answer) {
        if let Call::TakeOver { record } = &call {
            self.record_bytes += record.len();
        }
        self.told.push(Told {
            phase,
            call,
            answer,
            elsewhere: self.elsewhere,
        });
    }

    fn perhaps_put_in(&mut self) {
        if self.random.chance(if self.takes_over { 16 } else { 8 }) {
            self.put_in();
        }
    }

    /// Puts in calls that leave the count where it stands.
    fn put_in(&mut self) {
        match self.random.below(if self.takes_over { 4 } else { 2 }) {
            0 | 1 => self.try_refused(),
            2 => self.stay(),
            _ => self.go_elsewhere_and_back(),
        }
    }

    /// Makes a call at random if it is one that must be refused now.
    fn try_refused(&mut self) {
        let call = self.any_call();
        let answer = answer(&mut self.count.clone(), &mut Vec::new(), &call);
        if answer.refusal().is_some() {
            self.tell(self.count.phase(), call, answer);
        }
    }

    /// Takes over where the count stands.
    fn stay(&mut self) {
        if self.record_bytes < MOST_RECORD_BYTES {
            let record = self.count.record();
            self.carry_out(Call::TakeOver { record });
        }
    }

    /// Takes over a record that leads elsewhere, if one is found, makes some calls there, and takes
    /// over where the count stood.
    fn go_elsewhere_and_back(&mut self) {
        let back = self.count.record();
        let record = self.real_record();
        let found = record != back && record::read(self.routine, &record).is_ok();
        if !found || self.record_bytes >= MOST_RECORD_BYTES {
            return;
        }
        self.elsewhere = true;
        self.carry_out(Call::TakeOver { record });
        for _ in 0..self.random.below(12) {
            let call = self.call_elsewhere();
            self.carry_out(call);
        }
        self.carry_out(Call::TakeOver { record: back });
        self.elsewhere = false;
    }

    /// Mostly a call that is not refused, if there is one.
    fn call_elsewhere(&mut self) -> Call {
        let ready = self.any_ready();
        if self.random.chance(20) {
            return self.any_call();
        }
        match (self.count.phase(), ready) {
            (Phase::Open, Some(statement)) => Call::Step { statement },
            (Phase::Open, None) => Call::Close,
            (Phase::Resting, _) => Call::Begin {
                word: self.any_word_of_inputs(),
            },
            (Phase::Over, _) => self.any_call(),
        }
    }

    fn any_call(&mut self) -> Call {
        let n = self.routine.statements().len();
        let records_are_left = self.record_bytes < MOST_RECORD_BYTES;
        match self.random.below(if records_are_left { 9 } else { 5 }) {
            0 => Call::Begin {
                word: self.any_word(),
            },
            1 => Call::Step {
                statement: self.random.below(n),
            },
            2 => Call::Step {
                statement: [n, 256, 65_535, self.random.between(n, 65_535)][self.random.below(4)],
            },
            3 => Call::Close,
            4 => Call::React {
                word: self.any_word(),
            },
            5 => Call::TakeOver {
                record: self.random_record(),
            },
            _ => Call::TakeOver {
                record: self.real_record(),
            },
        }
    }

    fn random_record(&mut self) -> Vec<u8> {
        let length = [0, 278, 279, 279, 279, 280, self.random.below(600)][self.random.below(7)];
        self.random.bytes(length)
    }

    /// The record of where the count stands or stood, altered.
    fn real_record(&mut self) -> Vec<u8> {
        let record = match self.random.below(5) {
            0 | 1 if !self.earlier.is_empty() => {
                let which = self.random.below(self.earlier.len());
                self.earlier[which].clone()
            }
            _ => self.count.record(),
        };
        alter::altered(self.random, self.routine, &record)
    }

    /// Rather a word that is no word of inputs.
    fn any_word(&mut self) -> u64 {
        let allowed = self.any_word_of_inputs();
        if self.random.chance(75) {
            allowed | 1 << self.random.below(64)
        } else {
            allowed
        }
    }

    fn any_word_of_inputs(&mut self) -> u64 {
        Signals(self.random.next()).both(self.inputs).0
    }
}

impl Case {
    fn test(&self, index: u64) {
        for course in &self.courses {
            let wanted: Vec<Closing> = self
                .reactions
                .iter()
                .map(|reaction| reaction.closing)
                .collect();
            assert_eq!(course.closings(), wanted, "case {index}: the closings");
            for (steps, reaction) in course.steps.iter().zip(&self.reactions) {
                if let Some(steps) = steps {
                    assert_eq!(
                        sorted(steps),
                        sorted(&reaction.steps),
                        "case {index}: each statement as often"
                    );
                }
            }
        }
        assert_eq!(
            self.courses[0].last, self.courses[1].last,
            "case {index}: what remains"
        );
        assert!(
            self.verdict() || self.courses.iter().any(Course::takes_over),
            "case {index}: the verdict"
        );
    }

    /// Whether the closed instants of both courses are the same.
    pub fn verdict(&self) -> bool {
        calls::same_instants(&self.relays())
    }

    fn relays(&self) -> [Relay; 2] {
        self.courses.each_ref().map(Course::relay)
    }

    fn input(&self) -> Vec<u8> {
        let table = self.draft.bytes();
        let mut input = generate::input(&table, &[]);
        for course in &self.courses {
            let (before, after) = course.told.split_at(course.before);
            for told in [before, after] {
                let calls: Vec<&Call> = told.iter().map(|told| &told.call).collect();
                calls::write(&calls, &mut input);
            }
        }
        assert!(input.len() as u64 <= run::MOST_BYTES, "all of it is read");
        input
    }
}

impl Course {
    /// The closings of the instants that are made with the words.
    fn closings(&self) -> Vec<Closing> {
        self.told
            .iter()
            .filter(|told| !told.elsewhere)
            .filter_map(|told| told.answer.instant())
            .map(|instant| instant.closing)
            .collect()
    }

    fn takes_over(&self) -> bool {
        self.told
            .iter()
            .any(|told| matches!(told.answer, Answer::TookOver))
    }

    fn relay(&self) -> Relay {
        let (before, after) = self.told.split_at(self.before);
        let answers = |told: &[Told]| told.iter().map(|told| told.answer.clone()).collect();
        Relay {
            before: answers(before),
            record: self.record.clone(),
            after: answers(after),
        }
    }
}
