//! Ways to make a table wrong, each with the refusal that it leads to.

use crate::draft::{has, signal_byte, Draft, FIRST, SECOND, SIGNAL};
use crate::random::Random;
use crate::table::{SignalKind, MOST_SIGNALS, MOST_STATEMENTS};

const NOTHING: u8 = 0;
const STOP: u8 = 1;
const EMIT: u8 = 2;
const WAIT: u8 = 3;
const SEQUENCE: u8 = 4;
const PARALLEL: u8 = 5;
const LOOP: u8 = 6;
const WHEN: u8 = 7;
const KILL: u8 = 8;
const LOCAL: u8 = 9;

const FIELDS: [usize; 3] = [SIGNAL, FIRST, SECOND];

#[derive(Clone, Copy, Debug, PartialEq, Eq)]
pub enum Damage {
    FewerThanEightBytes,
    SignalsPlaceWrong,
    TooManySignals,
    NumberOfSignalsWrong,
    StatementsPlaceWrong,
    NoStatement,
    TooManyStatements,
    NumberOfStatementsWrong,
    BytesMissing,
    BytesTooMany,
    RandomBytes,
    SignalKindUnknown { last: bool },
    SignalKindsUnknown,
    KindUnknown,
    FieldNotZero { kind: u8, field: usize },
    SignalNotThere { kind: u8 },
    PartNotAbove { kind: u8, field: usize },
    PartNotBelow { kind: u8, field: usize },
    SamePartTwice,
    PartOfAnother,
    PartsForgotten,
    StatementUnnamed,
    EmitOfInput,
    EmittedSignalMadeInput,
    LocalOfWrongKind { kind: SignalKind },
    OutOfScope { kind: u8 },
    LocalAgain { nested: bool },
    LoopEndsAtOnce { over: u8 },
}

/// Every way there is.
pub fn all() -> Vec<Damage> {
    let mut ways = vec![
        Damage::FewerThanEightBytes,
        Damage::SignalsPlaceWrong,
        Damage::TooManySignals,
        Damage::NumberOfSignalsWrong,
        Damage::StatementsPlaceWrong,
        Damage::NoStatement,
        Damage::TooManyStatements,
        Damage::NumberOfStatementsWrong,
        Damage::BytesMissing,
        Damage::BytesTooMany,
        Damage::RandomBytes,
        Damage::SignalKindUnknown { last: false },
        Damage::SignalKindUnknown { last: true },
        Damage::SignalKindsUnknown,
        Damage::KindUnknown,
        Damage::SamePartTwice,
        Damage::PartOfAnother,
        Damage::PartsForgotten,
        Damage::StatementUnnamed,
        Damage::EmitOfInput,
        Damage::EmittedSignalMadeInput,
        Damage::LocalOfWrongKind {
            kind: SignalKind::Input,
        },
        Damage::LocalOfWrongKind {
            kind: SignalKind::Output,
        },
        Damage::LocalAgain { nested: false },
        Damage::LocalAgain { nested: true },
    ];
    ways.extend([EMIT, WAIT, WHEN, KILL].map(|kind| Damage::OutOfScope { kind }));
    ways.extend(
        [NOTHING, EMIT, WAIT, SEQUENCE, PARALLEL, WHEN, KILL, LOCAL]
            .map(|over| Damage::LoopEndsAtOnce { over }),
    );
    for kind in NOTHING..=LOCAL {
        ways.extend(
            FIELDS
                .iter()
                .filter(|&&field| !has(kind, field))
                .map(|&field| Damage::FieldNotZero { kind, field }),
        );
        if has(kind, SIGNAL) {
            ways.push(Damage::SignalNotThere { kind });
        }
        for field in [FIRST, SECOND] {
            if has(kind, field) {
                ways.extend([
                    Damage::PartNotAbove { kind, field },
                    Damage::PartNotBelow { kind, field },
                ]);
            }
        }
    }
    ways
}

impl Damage {
    /// The refusal of a routine to which nothing else was done.
    pub fn refusal(self) -> u8 {
        match self {
            Damage::FewerThanEightBytes
            | Damage::SignalsPlaceWrong
            | Damage::TooManySignals
            | Damage::NumberOfSignalsWrong
            | Damage::StatementsPlaceWrong
            | Damage::NoStatement
            | Damage::TooManyStatements
            | Damage::NumberOfStatementsWrong
            | Damage::BytesMissing
            | Damage::BytesTooMany
            | Damage::RandomBytes => 11,
            Damage::SignalKindUnknown { .. } | Damage::SignalKindsUnknown => 12,
            Damage::KindUnknown
            | Damage::FieldNotZero { .. }
            | Damage::SignalNotThere { .. }
            | Damage::PartNotAbove { .. }
            | Damage::PartNotBelow { .. } => 13,
            Damage::SamePartTwice
            | Damage::PartOfAnother
            | Damage::PartsForgotten
            | Damage::StatementUnnamed => 21,
            Damage::EmitOfInput
            | Damage::EmittedSignalMadeInput
            | Damage::LocalOfWrongKind { .. } => 22,
            Damage::OutOfScope { .. } | Damage::LocalAgain { .. } => 23,
            Damage::LoopEndsAtOnce { .. } => 24,
        }
    }

    /// The bytes of the damaged table, or nothing where this table offers no place for it.
    pub fn apply(self, random: &mut Random, draft: &mut Draft) -> Option<Vec<u8>> {
        match self {
            Damage::FewerThanEightBytes
            | Damage::SignalsPlaceWrong
            | Damage::NumberOfSignalsWrong
            | Damage::StatementsPlaceWrong
            | Damage::NumberOfStatementsWrong
            | Damage::BytesMissing
            | Damage::BytesTooMany
            | Damage::RandomBytes => return Some(self.bytes(random, draft.bytes())),
            _ => self.redraft(random, draft)?,
        }
        Some(draft.bytes())
    }

    fn bytes(self, random: &mut Random, mut bytes: Vec<u8>) -> Vec<u8> {
        match self {
            Damage::FewerThanEightBytes => bytes.truncate(random.below(8)),
            Damage::SignalsPlaceWrong => alter(random, &mut bytes, 0),
            Damage::NumberOfSignalsWrong => alter(random, &mut bytes, 2),
            Damage::StatementsPlaceWrong => alter(random, &mut bytes, 4),
            Damage::NumberOfStatementsWrong => alter(random, &mut bytes, 6),
            Damage::BytesMissing => {
                let few = random.between(1, 5);
                let most = bytes.len() - 8;
                bytes.truncate(bytes.len() - few.min(most));
            }
            Damage::BytesTooMany => {
                let more = random.between(1, 9);
                bytes.extend(random.bytes(more));
            }
            _ => {
                let length = random.below(400);
                bytes = random.bytes(length);
            }
        }
        bytes
    }

    fn redraft(self, random: &mut Random, draft: &mut Draft) -> Option<()> {
        let (g, n) = (draft.signals.len(), draft.records.len());
        match self {
            Damage::TooManySignals => {
                let most = [MOST_SIGNALS + 2, 300][random.below(2)];
                let wanted = random.between(MOST_SIGNALS + 1, most);
                draft.signals.resize(wanted, 1);
            }
            Damage::NoStatement => draft.records.clear(),
            Damage::TooManyStatements => {
                let most = [MOST_STATEMENTS + 2, 600][random.below(2)];
                let wanted = random.between(MOST_STATEMENTS + 1, most);
                draft.records.resize(wanted, [0; 4]);
            }
            Damage::SignalKindUnknown { last } => {
                let signal = if last {
                    g.checked_sub(1)?
                } else {
                    any(random, g)?
                };
                draft.signals[signal] = unknown(random, 3);
            }
            Damage::SignalKindsUnknown => {
                for _ in 0..random.between(2, 5) {
                    let signal = any(random, g)?;
                    draft.signals[signal] = unknown(random, 3);
                }
            }
            Damage::KindUnknown => {
                let statement = any(random, n)?;
                draft.records[statement][0] = unknown(random, 10);
            }
            Damage::FieldNotZero { kind, field } => {
                let statement = one_of(random, draft, kind)?;
                draft.records[statement][field] = unknown(random, 1);
            }
            Damage::SignalNotThere { kind } => {
                let statement = one_of(random, draft, kind)?;
                draft.records[statement][SIGNAL] = unknown(random, g);
            }
            Damage::PartNotAbove { kind, field } => {
                let statement = one_of(random, draft, kind)?;
                let own = random.chance(40);
                draft.records[statement][field] = if own {
                    statement
                } else {
                    random.between(0, statement)
                } as u8;
            }
            Damage::PartNotBelow { kind, field } => {
                let statement = one_of(random, draft, kind)?;
                if n >= MOST_STATEMENTS {
                    return None;
                }
                draft.records[statement][field] = unknown(random, n);
            }
            Damage::SamePartTwice => {
                let statement = one_where(random, draft, |draft, s| draft.parts(s).len() == 2)?;
                let [from, to] = [[FIRST, SECOND], [SECOND, FIRST]][random.below(2)];
                draft.records[statement][to] = draft.records[statement][from];
            }
            Damage::PartOfAnother => {
                let statement = one_where(random, draft, |draft, s| {
                    !draft.parts(s).is_empty() && s + 2 < n
                })?;
                let field = if draft.parts(statement).len() == 2 && random.chance(50) {
                    SECOND
                } else {
                    FIRST
                };
                let others: Vec<usize> = (statement + 1..n)
                    .filter(|&s| s != usize::from(draft.records[statement][field]))
                    .collect();
                draft.records[statement][field] = random.pick(&others)? as u8;
            }
            Damage::PartsForgotten => {
                let statement = one_where(random, draft, |draft, s| !draft.parts(s).is_empty())?;
                draft.records[statement] = [random.below(2) as u8, 0, 0, 0];
            }
            Damage::StatementUnnamed => {
                if n >= MOST_STATEMENTS {
                    return None;
                }
                draft.records.push([random.below(2) as u8, 0, 0, 0]);
            }
            Damage::EmitOfInput => {
                let statement = one_of(random, draft, EMIT)?;
                draft.records[statement][SIGNAL] =
                    random.pick(&draft.signals_of(SignalKind::Input))? as u8;
            }
            Damage::EmittedSignalMadeInput => {
                let statement = one_of(random, draft, EMIT)?;
                let signal = usize::from(draft.records[statement][SIGNAL]);
                *draft.signals.get_mut(signal)? = signal_byte(SignalKind::Input);
            }
            Damage::LocalOfWrongKind { kind } => {
                let statement = one_of(random, draft, LOCAL)?;
                draft.records[statement][SIGNAL] = random.pick(&draft.signals_of(kind))? as u8;
            }
            Damage::OutOfScope { kind } => {
                let statement = one_of(random, draft, kind)?;
                let outside: Vec<usize> = draft
                    .signals_of(SignalKind::Local)
                    .into_iter()
                    .filter(|&signal| !is_inside_local_of(draft, statement, signal))
                    .collect();
                draft.records[statement][SIGNAL] = random.pick(&outside)? as u8;
            }
            Damage::LocalAgain { nested } => {
                let later = one_where(random, draft, |draft, s| {
                    draft.records[s][0] == LOCAL && !lower_locals(draft, s, nested).is_empty()
                })?;
                let lower = random.pick(&lower_locals(draft, later, nested))?;
                draft.records[later][SIGNAL] = draft.records[lower][SIGNAL];
            }
            Damage::LoopEndsAtOnce { over } => {
                let leaf = [NOTHING, EMIT, WAIT].contains(&over);
                let wanted = if leaf { STOP } else { over };
                let statement = one_where(random, draft, |draft, s| {
                    is_loop_without_loop(draft, s, wanted)
                })?;
                for stop in draft.within(statement) {
                    if draft.records[stop][0] == STOP {
                        let kind = if leaf {
                            over
                        } else {
                            [NOTHING, WAIT, EMIT][random.below(3)]
                        };
                        let otherwise = (!leaf).then_some([0; 4]);
                        draft.records[stop] = leaf_record(random, draft, kind).or(otherwise)?;
                    }
                }
            }
            other => unreachable!("{other:?} alters bytes"),
        }
        Some(())
    }
}

/// Sets two bytes, a number, to another number.
fn alter(random: &mut Random, bytes: &mut [u8], at: usize) {
    let byte = at + random.below(2);
    let change = [1, 4, 255, random.between(1, 255)][random.below(4)];
    bytes[byte] = bytes[byte].wrapping_add(change as u8);
}

/// A byte that is not below `bound`; often the lowest or the highest.
fn unknown(random: &mut Random, bound: usize) -> u8 {
    [bound, 255, random.between(bound, 255)][random.below(3)] as u8
}

fn any(random: &mut Random, bound: usize) -> Option<usize> {
    (bound > 0).then(|| random.below(bound))
}

fn one_of(random: &mut Random, draft: &Draft, kind: u8) -> Option<usize> {
    random.pick(&draft.statements_of(kind))
}

fn one_where(
    random: &mut Random,
    draft: &Draft,
    fits: impl Fn(&Draft, usize) -> bool,
) -> Option<usize> {
    let fitting: Vec<usize> = (0..draft.records.len())
        .filter(|&s| fits(draft, s))
        .collect();
    random.pick(&fitting)
}

fn is_inside_local_of(draft: &Draft, statement: usize, signal: usize) -> bool {
    draft
        .around(statement)
        .iter()
        .any(|&s| draft.records[s][0] == LOCAL && usize::from(draft.records[s][SIGNAL]) == signal)
}

/// The local statements with lower numbers, those round this one or the others.
fn lower_locals(draft: &Draft, statement: usize, nested: bool) -> Vec<usize> {
    let around = draft.around(statement);
    let mut locals = draft.statements_of(LOCAL);
    locals.retain(|s| *s < statement && around.contains(s) == nested);
    locals
}

fn is_loop_without_loop(draft: &Draft, statement: usize, first: u8) -> bool {
    draft.records[statement][0] == LOOP
        && draft
            .records
            .get(usize::from(draft.records[statement][FIRST]))
            .is_some_and(|record| record[0] == first)
        && draft
            .within(statement)
            .iter()
            .all(|&s| s == statement || draft.records[s][0] != LOOP)
}

fn leaf_record(random: &mut Random, draft: &Draft, kind: u8) -> Option<[u8; 4]> {
    let outputs = draft.signals_of(SignalKind::Output);
    match kind {
        NOTHING => Some([NOTHING, 0, 0, 0]),
        _ => Some([kind, random.pick(&outputs)? as u8, 0, 0]),
    }
}
