//! Random routines of a wanted size.

use std::collections::VecDeque;

use crate::draft::{record, signal_byte, Draft};
use crate::random::Random;
use crate::table::{SignalKind, Statement, MOST_SIGNALS, MOST_STATEMENTS};

/// How many statements a local with a late emit has at least.
const LATE_EMIT: usize = 8;

/// How often each kind is chosen, by number of the kind.
type Weights = [usize; 10];

const WEIGHTS: [Weights; 7] = [
    [4, 10, 12, 12, 12, 10, 6, 8, 6, 6],
    [1, 6, 20, 20, 10, 25, 8, 6, 4, 4],
    [2, 10, 12, 8, 12, 8, 12, 6, 6, 20],
    [2, 10, 12, 8, 14, 8, 12, 6, 20, 4],
    [4, 10, 14, 6, 12, 8, 8, 25, 4, 4],
    [3, 5, 12, 5, 2, 2, 20, 3, 20, 20],
    [10, 10, 10, 10, 10, 10, 10, 10, 10, 10],
];

/// How the statements of a tree are numbered; a part always has a higher number than what names it.
#[derive(Clone, Copy)]
enum Numbering {
    FirstBeforeSecond,
    SecondBeforeFirst,
    LevelByLevel,
    AnyOrder,
}

/// What is wanted of a statement besides its size.
#[derive(Clone, Copy)]
struct Wish {
    /// It must not end at once.
    takes_time: bool,
    /// It should be able to end some day.
    may_end: bool,
}

pub fn routine(random: &mut Random) -> Draft {
    let size = size(random);
    routine_of_size(random, size)
}

pub fn routine_of_size(random: &mut Random, size: usize) -> Draft {
    let kinds = signal_kinds(random);
    let mut grower = Grower::new(random, kinds);
    let root = if grower.random.chance(70) {
        grower.side_by_side(size)
    } else {
        let may_end = grower.random.chance(60);
        grower.statement(
            size,
            Wish {
                takes_time: false,
                may_end,
            },
        )
    };
    let Grower {
        kinds, statements, ..
    } = grower;
    let numbering = match random.below(5) {
        0 => Numbering::FirstBeforeSecond,
        1 => Numbering::SecondBeforeFirst,
        2 => Numbering::LevelByLevel,
        _ => Numbering::AnyOrder,
    };
    Draft {
        signals: kinds.into_iter().map(signal_byte).collect(),
        records: numbered(random, &statements, root, numbering)
            .into_iter()
            .map(record)
            .collect(),
    }
}

fn size(random: &mut Random) -> usize {
    match random.below(100) {
        0..=11 => random.between(1, 6),
        12..=49 => random.between(7, 40),
        50..=79 => random.between(41, 120),
        80..=95 => random.between(121, MOST_STATEMENTS),
        _ => MOST_STATEMENTS,
    }
}

fn signal_kinds(random: &mut Random) -> Vec<SignalKind> {
    let g = match random.below(100) {
        0..=2 => 0,
        3..=69 => random.between(2, 12),
        70..=92 => random.between(1, MOST_SIGNALS),
        _ => MOST_SIGNALS,
    };
    let [inputs, outputs] = [random.between(15, 45), random.between(15, 40)];
    let mut kinds: Vec<SignalKind> = (0..g)
        .map(|_| match random.below(100) {
            p if p < inputs => SignalKind::Input,
            p if p < inputs + outputs => SignalKind::Output,
            _ => SignalKind::Local,
        })
        .collect();
    if g >= 2 && random.chance(95) {
        let input = random.below(g);
        kinds[input] = SignalKind::Input;
        kinds[(input + random.between(1, g - 1)) % g] = SignalKind::Output;
    }
    kinds
}

/// The statements in the order of a numbering, with their parts named by it.
fn numbered(
    random: &mut Random,
    tree: &[Statement],
    root: usize,
    numbering: Numbering,
) -> Vec<Statement> {
    let mut order = Vec::with_capacity(tree.len());
    let mut next = VecDeque::from([root]);
    while let Some(number) = take(random, &mut next, numbering) {
        order.push(number);
        let parts: Vec<usize> = tree[number].parts().collect();
        match numbering {
            Numbering::FirstBeforeSecond => next.extend(parts.iter().rev()),
            _ => next.extend(&parts),
        }
    }
    let mut names = vec![0; tree.len()];
    for (name, &number) in order.iter().enumerate() {
        names[number] = name;
    }
    order
        .iter()
        .map(|&number| renamed(tree[number], &names))
        .collect()
}

fn take(random: &mut Random, next: &mut VecDeque<usize>, numbering: Numbering) -> Option<usize> {
    match numbering {
        Numbering::FirstBeforeSecond | Numbering::SecondBeforeFirst => next.pop_back(),
        Numbering::LevelByLevel => next.pop_front(),
        Numbering::AnyOrder if next.is_empty() => None,
        Numbering::AnyOrder => next.swap_remove_back(random.below(next.len())),
    }
}

fn renamed(statement: Statement, names: &[usize]) -> Statement {
    match statement {
        Statement::Sequence { first, second } => Statement::Sequence {
            first: names[first],
            second: names[second],
        },
        Statement::Parallel { first, second } => Statement::Parallel {
            first: names[first],
            second: names[second],
        },
        Statement::Loop { first } => Statement::Loop {
            first: names[first],
        },
        Statement::When {
            signal,
            first,
            second,
        } => Statement::When {
            signal,
            first: names[first],
            second: names[second],
        },
        Statement::Kill { signal, first } => Statement::Kill {
            signal,
            first: names[first],
        },
        Statement::Local { signal, first } => Statement::Local {
            signal,
            first: names[first],
        },
        leaf => leaf,
    }
}

struct Grower<'r> {
    random: &'r mut Random,
    weights: Weights,
    kinds: Vec<SignalKind>,
    /// The signals that may be used here; those of the nearest local statements are last.
    scope: Vec<usize>,
    /// The local signals that have no local statement yet.
    unused: Vec<usize>,
    /// In percent, how often parts are of about the same size.
    evenness: usize,
    statements: Vec<Statement>,
}

impl<'r> Grower<'r> {
    fn new(random: &'r mut Random, kinds: Vec<SignalKind>) -> Grower<'r> {
        let (unused, mut scope): (Vec<usize>, Vec<usize>) =
            (0..kinds.len()).partition(|&s| kinds[s] == SignalKind::Local);
        if random.chance(75) {
            let favourites = random.between(2, 6);
            while scope.len() > favourites {
                let other = random.below(scope.len());
                scope.swap_remove(other);
            }
        }
        let weights = WEIGHTS[random.below(WEIGHTS.len())];
        let evenness = random.between(10, 90);
        Grower {
            random,
            weights,
            kinds,
            scope,
            unused,
            evenness,
            statements: Vec::new(),
        }
    }

    fn push(&mut self, statement: Statement) -> usize {
        self.statements.push(statement);
        self.statements.len() - 1
    }

    /// Loops side by side, with locals round them by which they reach one another.
    fn side_by_side(&mut self, size: usize) -> usize {
        if size > 8 && !self.unused.is_empty() && self.random.chance(35) {
            return self.local(size, Self::side_by_side);
        }
        if size > 12 && self.random.chance(85) {
            let before = self.random.between(5, size - 6);
            let first = self.side_by_side(before);
            let second = self.side_by_side(size - 1 - before);
            return self.push(Statement::Parallel { first, second });
        }
        if size == 1 {
            return self.leaf(Wish {
                takes_time: false,
                may_end: true,
            });
        }
        self.loop_of(size, true)
    }

    fn loop_of(&mut self, size: usize, may_end: bool) -> usize {
        let first = if size > LATE_EMIT && !self.unused.is_empty() && self.random.chance(20) {
            self.local(size - 1, Self::late_emit)
        } else {
            self.statement(
                size - 1,
                Wish {
                    takes_time: true,
                    may_end,
                },
            )
        };
        self.push(Statement::Loop { first })
    }

    fn local(&mut self, size: usize, first: impl FnOnce(&mut Self, usize) -> usize) -> usize {
        let signal = self
            .unused
            .pop()
            .expect("a local is wanted only if a signal is left");
        self.scope.push(signal);
        let first = first(self, size - 1);
        self.scope.pop();
        self.push(Statement::Local { signal, first })
    }

    /// Asks for the signal of the nearest local, takes time, and emits that signal as the last thing. When a
    /// loop goes round, the new local must not see what the old one emitted.
    fn late_emit(&mut self, size: usize) -> usize {
        let signal = self.scope[self.scope.len() - 1];
        let asking = self.random.between(3, size - 4);
        let time = size - 3 - asking;
        let wish = Wish {
            takes_time: false,
            may_end: true,
        };
        let (then, otherwise) = self.halves(asking);
        let first = self.statement(then, wish);
        let second = self.statement(otherwise, wish);
        let ask = self.push(Statement::When {
            signal,
            first,
            second,
        });
        let first = self.statement(
            time,
            Wish {
                takes_time: true,
                ..wish
            },
        );
        let second = self.push(Statement::Emit { signal });
        let late = self.push(Statement::Sequence { first, second });
        self.push(Statement::Sequence {
            first: ask,
            second: late,
        })
    }

    fn statement(&mut self, size: usize, wish: Wish) -> usize {
        if size == 1 {
            return self.leaf(wish);
        }
        match self.kind(size, wish) {
            4 => {
                let [early, may_end] = [50, 92].map(|percent| self.random.chance(percent));
                let (before, after) = self.halves(size);
                let first = self.statement(
                    before,
                    Wish {
                        takes_time: wish.takes_time && early,
                        may_end,
                    },
                );
                let second = self.statement(
                    after,
                    Wish {
                        takes_time: wish.takes_time && !early,
                        ..wish
                    },
                );
                self.push(Statement::Sequence { first, second })
            }
            5 => {
                let early = self.random.chance(50);
                let (before, after) = self.halves(size);
                let first = self.statement(
                    before,
                    Wish {
                        takes_time: wish.takes_time && early,
                        ..wish
                    },
                );
                let second = self.statement(
                    after,
                    Wish {
                        takes_time: wish.takes_time && !early,
                        ..wish
                    },
                );
                self.push(Statement::Parallel { first, second })
            }
            6 => {
                let may_end = self.random.chance(90);
                self.loop_of(size, may_end)
            }
            7 => {
                let signal = self.used_signal();
                let (before, after) = self.halves(size);
                let first = self.statement(before, wish);
                let second = self.statement(
                    after,
                    Wish {
                        takes_time: false,
                        ..wish
                    },
                );
                self.push(Statement::When {
                    signal,
                    first,
                    second,
                })
            }
            8 => {
                let signal = self.used_signal();
                let may_end = self.random.chance(40);
                let first = self.statement(size - 1, Wish { may_end, ..wish });
                self.push(Statement::Kill { signal, first })
            }
            9 if size >= LATE_EMIT && self.random.chance(20) => self.local(size, Self::late_emit),
            9 => self.local(size, |grower, size| grower.statement(size, wish)),
            other => unreachable!("kind {other} has no parts"),
        }
    }

    /// A kind with parts.
    fn kind(&mut self, size: usize, wish: Wish) -> usize {
        let mut kinds = Vec::new();
        if size >= 3 {
            kinds.extend([4, 5]);
        }
        if !wish.may_end {
            kinds.push(6);
        }
        if size >= 3 && !self.scope.is_empty() {
            kinds.push(7);
        }
        if !self.scope.is_empty() {
            kinds.push(8);
        }
        if !self.unused.is_empty() {
            kinds.push(9);
        }
        self.weighted(&kinds).unwrap_or(6)
    }

    fn leaf(&mut self, wish: Wish) -> usize {
        if wish.takes_time {
            return self.push(Statement::Stop);
        }
        let emitted: Vec<usize> = self
            .scope
            .iter()
            .copied()
            .filter(|&s| self.kinds[s] != SignalKind::Input)
            .collect();
        let mut kinds = vec![0, 1];
        if !emitted.is_empty() {
            kinds.push(2);
        }
        if !self.scope.is_empty() {
            kinds.push(3);
        }
        let leaf = match self.weighted(&kinds) {
            Some(2) => Statement::Emit {
                signal: self.near(&emitted),
            },
            Some(3) => Statement::Wait {
                signal: self.used_signal(),
            },
            Some(1) => Statement::Stop,
            _ => Statement::Nothing,
        };
        self.push(leaf)
    }

    fn weighted(&mut self, kinds: &[usize]) -> Option<usize> {
        let total: usize = kinds.iter().map(|&kind| self.weights[kind]).sum();
        if total == 0 {
            return None;
        }
        let mut left = self.random.below(total);
        kinds.iter().copied().find(|&kind| {
            let found = left < self.weights[kind];
            left = left.wrapping_sub(self.weights[kind]);
            found
        })
    }

    fn used_signal(&mut self) -> usize {
        let scope = self.scope.clone();
        self.near(&scope)
    }

    /// Rather a signal of a near local statement than another.
    fn near(&mut self, signals: &[usize]) -> usize {
        let from = if self.random.chance(45) {
            signals.len().saturating_sub(3)
        } else {
            0
        };
        signals[self.random.between(from, signals.len() - 1)]
    }

    /// The sizes of two parts of a statement.
    fn halves(&mut self, size: usize) -> (usize, usize) {
        let rest = size - 1;
        let before = if self.random.chance(self.evenness) {
            let slack = rest / 6;
            self.random
                .between((rest / 2 - slack).max(1), (rest / 2 + slack).min(rest - 1))
        } else {
            self.random.between(1, rest - 1)
        };
        (before, rest - before)
    }
}
