//! What was met in two orders of steps: totals that show whether they put an engine to the test.

use std::collections::{BTreeMap, BTreeSet};

use crate::calls::{Answer, Call};
use crate::count::Phase;
use crate::orders::{Case, Course, Told};
use crate::record::{self, Broken};
use crate::refusal::Refusal;
use crate::table::Routine;

/// From so many routines on, all that is wanted must be met.
const ENOUGH: u64 = 5_000;

const REFUSALS: [u8; 12] = [31, 32, 33, 34, 41, 42, 43, 51, 52, 61, 62, 63];
const OF_A_RECORD: [u8; 3] = [61, 62, 63];
const FIELDS: [usize; 4] = [
    record::PHASE,
    record::CLOSED,
    record::STEPS,
    record::PRESENT,
];

/// How often something was met in the phases resting, open and over.
type ByPhase = [u64; 3];

#[derive(Default)]
struct Met {
    by_phase: ByPhase,
    places: BTreeSet<usize>,
}

#[derive(Default)]
pub struct Totals {
    cases: u64,
    instants: u64,
    by_react: u64,
    steps: u64,
    in_other_order: u64,
    hand_overs: ByPhase,
    same_instants: u64,
    /// By the phase in which the count stood.
    taken_over: ByPhase,
    calls_elsewhere: u64,
    instants_elsewhere: u64,
    refusals: BTreeMap<u8, Met>,
    /// The first bad field of a head.
    fields: BTreeMap<usize, ByPhase>,
    /// How the first statement breaks its rule, by the phase that the record says.
    broken: BTreeMap<Broken, ByPhase>,
}

impl Totals {
    pub fn take(&mut self, case: &Case) {
        self.cases += 1;
        self.instants += case.reactions.len() as u64;
        let steps = case.reactions.iter().map(|reaction| reaction.steps.len());
        self.steps += steps.sum::<usize>() as u64;
        self.same_instants += u64::from(case.verdict());
        let [first, second] = &case.courses;
        for (one, other) in first.steps.iter().zip(&second.steps) {
            self.in_other_order += u64::from(one.is_some() && other.is_some() && one != other);
        }
        for course in &case.courses {
            self.take_course(&case.routine, course);
        }
    }

    fn take_course(&mut self, routine: &Routine, course: &Course) {
        let by_react = course.steps.iter().filter(|steps| steps.is_none());
        self.by_react += by_react.count() as u64;
        add(&mut self.hand_overs, course.phase_of_hand_over);
        for told in &course.told {
            self.calls_elsewhere += u64::from(told.elsewhere);
            self.instants_elsewhere += u64::from(told.elsewhere && told.answer.instant().is_some());
            self.take_answer(routine, told);
        }
    }

    fn take_answer(&mut self, routine: &Routine, told: &Told) {
        match told.answer {
            Answer::TookOver => add(&mut self.taken_over, told.phase),
            Answer::Refused { refusal } => self.take_refusal(routine, told, refusal),
            _ => {}
        }
    }

    fn take_refusal(&mut self, routine: &Routine, told: &Told, refusal: Refusal) {
        let met = self.refusals.entry(refusal.number()).or_default();
        add(&mut met.by_phase, told.phase);
        met.places.insert(refusal.place());
        if let Refusal::RecordHead { offset } = refusal {
            add(self.fields.entry(offset).or_default(), told.phase);
        }
        if let Call::TakeOver { record } = &told.call {
            if let Some((phase, broken)) = record::broken(routine, record) {
                add(self.broken.entry(broken).or_default(), phase);
            }
        }
    }

    pub fn print(&self) {
        self.print_numbers();
        print_head("the phase of the count, in either order");
        print_line(self.hand_overs, "hand-overs");
        print_line(self.taken_over, "records taken over");
        for (refusal, met) in &self.refusals {
            let what = format!("refused with {refusal}, places: {}", met.places.len());
            print_line(met.by_phase, &what);
        }
        for (field, by_phase) in &self.fields {
            print_line(*by_phase, &format!("refused with 62 {field}"));
        }
        print_head("the phase in the record, where 63 was met");
        for (broken, by_phase) in &self.broken {
            print_line(*by_phase, &broken.to_string());
        }
        println!();
    }

    fn print_numbers(&self) {
        let lines = [
            ("routines, each with two orders of steps", self.cases),
            ("instants", self.instants),
            ("steps", self.steps),
            (
                "instants in which the two orders are not the same",
                self.in_other_order,
            ),
            ("instants by react, in either order", self.by_react),
            (
                "routines whose two orders come to the same instants",
                self.same_instants,
            ),
            ("calls elsewhere, in either order", self.calls_elsewhere),
            ("instants closed by them", self.instants_elsewhere),
        ];
        for (what, number) in lines {
            println!("{number:>10} {what}");
        }
    }

    /// Says what was not met, if there were enough routines to meet it.
    pub fn all_met(&self) -> Result<(), String> {
        let missing = [self.refusals_missing(), self.rest_missing()].concat();
        if self.cases < ENOUGH || missing.is_empty() {
            return Ok(());
        }
        Err(format!("not met: {}", missing.join(", ")))
    }

    fn refusals_missing(&self) -> Vec<String> {
        let refusals = REFUSALS
            .iter()
            .filter(|number| !self.refusals.contains_key(number))
            .map(|number| number.to_string());
        let phases = OF_A_RECORD
            .iter()
            .filter(|number| !self.refusals.get(number).is_some_and(Met::in_each_phase))
            .map(|number| format!("{number} in each phase"));
        let fields = FIELDS
            .iter()
            .filter(|field| !self.fields.contains_key(field))
            .map(|field| format!("62 {field}"));
        let broken = Broken::ALL
            .iter()
            .filter(|broken| !self.broken.contains_key(broken))
            .map(|broken| format!("63 for {broken}"));
        refusals.chain(phases).chain(fields).chain(broken).collect()
    }

    fn rest_missing(&self) -> Vec<String> {
        let wanted = [
            ("a hand-over in each phase", !self.hand_overs.contains(&0)),
            (
                "a record taken over in each phase",
                !self.taken_over.contains(&0),
            ),
            ("the same instants", self.same_instants > 0),
            ("other instants", self.same_instants < self.cases),
        ];
        wanted
            .into_iter()
            .filter(|&(_, met)| !met)
            .map(|(what, _)| what.to_string())
            .collect()
    }
}

impl Met {
    fn in_each_phase(&self) -> bool {
        !self.by_phase.contains(&0)
    }
}

fn add(by_phase: &mut ByPhase, phase: Phase) {
    by_phase[usize::from(phase.byte())] += 1;
}

fn print_head(by_what: &str) {
    println!(
        "\n{:>10} {:>10} {:>10}   {by_what}",
        "resting", "open", "over"
    );
}

fn print_line([resting, open, over]: ByPhase, what: &str) {
    println!("{resting:>10} {open:>10} {over:>10}   {what}");
}
