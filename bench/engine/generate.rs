//! Inputs for the program `run`, made from a seed.

use std::fs;
use std::io;
use std::path::Path;

use crate::count::{Count, Phase};
use crate::damage::{self, Damage};
use crate::draft::Draft;
use crate::grow;
use crate::random::Random;
use crate::signals::Signals;
use crate::table::{self, Routine, SignalKind};

const MOST_BYTES: usize = crate::run::MOST_BYTES as usize;

/// An input, what is special about it, and the refusal that must come of it, if one is known.
pub struct Sample {
    pub input: Vec<u8>,
    pub way: String,
    pub refusal: Option<u8>,
}

/// Something wrong with the words, not with the table.
#[derive(Clone, Copy, Debug)]
enum WordFault {
    BitOfNoSignal,
    HighestBit,
    BitOfOutput,
    BitOfLocal,
    AllBits,
    WordsAfterTheEnd,
    WrongBitsAfterTheEnd,
}

/// Something special about the length of the input.
#[derive(Clone, Copy, Debug)]
enum Extent {
    NoByte,
    OneByte,
    OnlyTheLength,
    TableCut,
    TableShorterThanItsLength,
    LengthTooSmall,
    LengthTooLarge,
    LengthAboveAll,
    HalfAWordAtTheEnd,
    NoWord,
    FullInput,
    LongerThanIsRead,
    WrongWordAfterWhatIsRead,
}

const WORD_FAULTS: [WordFault; 7] = [
    WordFault::BitOfNoSignal,
    WordFault::HighestBit,
    WordFault::BitOfOutput,
    WordFault::BitOfLocal,
    WordFault::AllBits,
    WordFault::WordsAfterTheEnd,
    WordFault::WrongBitsAfterTheEnd,
];

const SHORT_EXTENTS: [Extent; 10] = [
    Extent::NoByte,
    Extent::OneByte,
    Extent::OnlyTheLength,
    Extent::TableCut,
    Extent::TableShorterThanItsLength,
    Extent::LengthTooSmall,
    Extent::LengthTooLarge,
    Extent::LengthAboveAll,
    Extent::HalfAWordAtTheEnd,
    Extent::NoWord,
];

const FULL_EXTENTS: [Extent; 3] = [
    Extent::FullInput,
    Extent::LongerThanIsRead,
    Extent::WrongWordAfterWhatIsRead,
];

/// Writes the inputs number 0 on into files of a folder, and their list into the file `list`.
pub fn write(folder: &Path, seed: u64, how_many: u64) -> io::Result<()> {
    let mut list = String::new();
    for index in 0..how_many {
        let sample = sample(seed, index);
        fs::write(folder.join(format!("{index:06}")), &sample.input)?;
        let refusal = sample
            .refusal
            .map_or("-".to_string(), |number| number.to_string());
        list.push_str(&format!("{index:06} {refusal} {}\n", sample.way));
    }
    fs::write(folder.join("list"), list)
}

/// The input number `index`: routines at work, and now and then something wrong.
pub fn sample(seed: u64, index: u64) -> Sample {
    let random = &mut Random::new(seed, index);
    let round = (index / 40) as usize;
    match index % 40 {
        0..=23 => at_work(random),
        24..=33 => {
            let ways = damage::all();
            damaged(
                random,
                ways[(round * 10 + (index % 40 - 24) as usize) % ways.len()],
            )
        }
        34 => damaged_at_random(random),
        35 => damaged_often(random),
        36 if round % 4 == 0 => shifted(random),
        36 => damaged_alike(random),
        37 => wrong_words(random, WORD_FAULTS[round % WORD_FAULTS.len()]),
        38 => odd_extent(random, SHORT_EXTENTS[round % SHORT_EXTENTS.len()]),
        _ if round % 5 == 0 => full_extent(random, FULL_EXTENTS[round / 5 % FULL_EXTENTS.len()]),
        _ => at_work(random),
    }
}

fn at_work(random: &mut Random) -> Sample {
    let draft = grow::routine(random);
    let how_many = match random.below(20) {
        0 => 0,
        1..=14 => random.between(1, 40),
        15..=18 => random.between(20, 120),
        _ => random.between(100, 400),
    };
    let words = words(random, inputs(&draft), how_many);
    Sample {
        input: input(&draft.bytes(), &words),
        way: "AtWork".to_string(),
        refusal: None,
    }
}

/// Draws routines until one offers a place for the damage.
fn damaged(random: &mut Random, damage: Damage) -> Sample {
    loop {
        let mut draft = grow::routine(random);
        let inputs = inputs(&draft);
        if let Some(table) = damage.apply(random, &mut draft) {
            let input = input(&table, &some_words(random, inputs));
            let way = format!("{damage:?}").replace(' ', "");
            return Sample {
                input,
                way,
                refusal: Some(damage.refusal()),
            };
        }
    }
}

fn damaged_often(random: &mut Random) -> Sample {
    let mut draft = grow::routine(random);
    let inputs = inputs(&draft);
    let ways = damage::all();
    let mut table = draft.bytes();
    for _ in 0..random.between(2, 12) {
        let damage = ways[random.below(ways.len())];
        if damage.refusal() > 11 || random.chance(4) {
            table = damage.apply(random, &mut draft).unwrap_or(table);
        }
    }
    Sample {
        input: input(&table, &some_words(random, inputs)),
        way: "DamagedOften".to_string(),
        refusal: None,
    }
}

/// Damaged in several places, all for the same refusal: only the lowest place is answered.
fn damaged_alike(random: &mut Random) -> Sample {
    let mut draft = grow::routine(random);
    let inputs = inputs(&draft);
    let refusal = [12, 13, 21, 22, 23, 24, 24][random.below(7)];
    let ways: Vec<Damage> = damage::all()
        .into_iter()
        .filter(|damage| damage.refusal() == refusal)
        .collect();
    let mut table = draft.bytes();
    for _ in 0..random.between(4, 20) {
        let damage = ways[random.below(ways.len())];
        table = damage.apply(random, &mut draft).unwrap_or(table);
    }
    Sample {
        input: input(&table, &some_words(random, inputs)),
        way: "DamagedAlike".to_string(),
        refusal: None,
    }
}

fn damaged_at_random(random: &mut Random) -> Sample {
    let draft = grow::routine(random);
    let mut table = draft.bytes();
    for _ in 0..random.between(1, 3) {
        let at = random.below(table.len());
        table[at] = if random.chance(50) {
            random.byte()
        } else {
            random.below(10) as u8
        };
    }
    let input = input(&table, &some_words(random, inputs(&draft)));
    Sample {
        input,
        way: "BytesAltered".to_string(),
        refusal: None,
    }
}

/// The same length with other numbers of signals and statements.
fn shifted(random: &mut Random) -> Sample {
    loop {
        let mut table = grow::routine(random).bytes();
        let (g, n) = (
            usize::from(table[2]),
            usize::from(u16::from_le_bytes([table[6], table[7]])),
        );
        let by = random.between(1, 3);
        let (g, n) = if random.chance(50) {
            (g + 4 * by, n.saturating_sub(by))
        } else {
            (g.saturating_sub(4 * by), n + by)
        };
        if g <= 64 && (1..=256).contains(&n) && table.len() == 8 + g + 4 * n {
            for (at, number) in [(2, g), (4, 8 + g), (6, n)] {
                table[at..at + 2].copy_from_slice(&(number as u16).to_le_bytes());
            }
            return Sample {
                input: input(&table, &[]),
                way: "Shifted".to_string(),
                refusal: None,
            };
        }
    }
}

fn wrong_words(random: &mut Random, fault: WordFault) -> Sample {
    loop {
        if let Some((input, refusal)) = words_gone_wrong(random, fault) {
            return Sample {
                input,
                way: format!("{fault:?}"),
                refusal: Some(refusal),
            };
        }
    }
}

fn words_gone_wrong(random: &mut Random, fault: WordFault) -> Option<(Vec<u8>, u8)> {
    let size = random.between(1, 60);
    let draft = grow::routine_of_size(random, size);
    let routine = table::load(&draft.bytes()).ok()?;
    let (allowed, g) = (inputs(&draft), draft.signals.len());
    let how_many = random.between(1, 30);
    let mut words = words(random, allowed, how_many);
    let ends = instants_until_over(&routine, &words);
    let after_the_end = matches!(
        fault,
        WordFault::WordsAfterTheEnd | WordFault::WrongBitsAfterTheEnd
    );
    if after_the_end != ends.is_some() {
        return None;
    }
    let signal = match fault {
        WordFault::BitOfNoSignal if g < 64 => Some(random.between(g, 63)),
        WordFault::HighestBit if !allowed.has(63) => Some(63),
        WordFault::BitOfOutput => random.pick(&draft.signals_of(SignalKind::Output)),
        WordFault::BitOfLocal => random.pick(&draft.signals_of(SignalKind::Local)),
        WordFault::AllBits | WordFault::WrongBitsAfterTheEnd if g < 64 => None,
        WordFault::WordsAfterTheEnd => None,
        _ => return None,
    };
    match (fault, signal, ends) {
        (WordFault::WordsAfterTheEnd, _, Some(_)) => words.push(words[0]),
        (WordFault::WrongBitsAfterTheEnd, _, Some(last)) => {
            words.truncate(last);
            words.push(u64::MAX);
        }
        (WordFault::AllBits, _, _) => words.push(u64::MAX),
        (_, Some(signal), _) => words.push(words[0] | 1 << signal),
        _ => return None,
    }
    let after = some_words(random, allowed);
    words.extend(after);
    Some((
        input(&draft.bytes(), &words),
        if after_the_end { 32 } else { 34 },
    ))
}

fn instants_until_over(routine: &Routine, words: &[u64]) -> Option<usize> {
    let mut count = Count::new(routine);
    (0..words.len())
        .find(|&at| count.react(words[at]).is_err() || count.phase() == Phase::Over)
        .map(|at| at + 1)
}

fn odd_extent(random: &mut Random, extent: Extent) -> Sample {
    let draft = grow::routine(random);
    let table = draft.bytes();
    let allowed = inputs(&draft);
    let words = words(random, allowed, random_count(extent));
    let mut input = input(&table, &words);
    let mut refusal = Some(11);
    match extent {
        Extent::NoByte => input.clear(),
        Extent::OneByte => input.truncate(1),
        Extent::OnlyTheLength => input.truncate(2),
        Extent::TableCut => {
            let left = random.between(2, 1 + table.len());
            input.truncate(left);
        }
        Extent::TableShorterThanItsLength => {
            let more = random.between(1, 65_535 - table.len());
            set_length(&mut input, table.len() + more);
            refusal = None;
        }
        Extent::LengthTooSmall => {
            let less = random.between(1, table.len());
            set_length(&mut input, table.len() - less);
        }
        Extent::LengthTooLarge => {
            let more = random.between(1, 8 * words.len());
            set_length(&mut input, table.len() + more);
        }
        Extent::LengthAboveAll => set_length(&mut input, 65_535),
        Extent::HalfAWordAtTheEnd => {
            let more = random.between(1, 7);
            input.extend(random.bytes(more));
            refusal = None;
        }
        Extent::NoWord
        | Extent::FullInput
        | Extent::LongerThanIsRead
        | Extent::WrongWordAfterWhatIsRead => {
            refusal = None;
        }
    }
    Sample {
        input,
        way: format!("{extent:?}"),
        refusal,
    }
}

fn random_count(extent: Extent) -> usize {
    match extent {
        Extent::TableShorterThanItsLength | Extent::NoWord => 0,
        _ => 12,
    }
}

/// Inputs as long as what is read, or longer, for a routine that works on to the end.
fn full_extent(random: &mut Random, extent: Extent) -> Sample {
    loop {
        let size = random.between(5, 60);
        let draft = grow::routine_of_size(random, size);
        let table = draft.bytes();
        let allowed = inputs(&draft);
        let room = (MOST_BYTES - 2 - table.len()) / 8;
        let how_many = if matches!(extent, Extent::FullInput) {
            room
        } else {
            room + 3
        };
        let mut words = words(random, allowed, how_many);
        if matches!(extent, Extent::WrongWordAfterWhatIsRead) {
            words[room..].fill(u64::MAX);
        }
        let ends_with_a_word = 2 + table.len() + 8 * room == MOST_BYTES;
        if matches!(extent, Extent::FullInput) && !ends_with_a_word {
            continue;
        }
        let works_on = table::load(&table)
            .is_ok_and(|routine| instants_until_over(&routine, &words[..room]).is_none());
        if works_on {
            return Sample {
                input: input(&table, &words),
                way: format!("{extent:?}"),
                refusal: None,
            };
        }
    }
}

fn inputs(draft: &Draft) -> Signals {
    draft.signals_of(SignalKind::Input).into_iter().collect()
}

fn some_words(random: &mut Random, inputs: Signals) -> Vec<u64> {
    let how_many = random.below(4);
    words(random, inputs, how_many)
}

/// Words of inputs: often or seldom present, and now and then the same word many times.
pub fn words(random: &mut Random, inputs: Signals, how_many: usize) -> Vec<u64> {
    let (often, same) = (random.between(5, 95), random.chance(15));
    let mut words = Vec::with_capacity(how_many);
    for _ in 0..how_many {
        let word = if same && !words.is_empty() && !random.chance(5) {
            words[words.len() - 1]
        } else {
            let drawn: Signals = (0..64).filter(|_| random.below(100) < often).collect();
            drawn.both(inputs).0
        };
        words.push(word);
    }
    words
}

pub fn input(table: &[u8], words: &[u64]) -> Vec<u8> {
    let mut input = (table.len() as u16).to_le_bytes().to_vec();
    input.extend(table);
    for word in words {
        input.extend(word.to_le_bytes());
    }
    input
}

fn set_length(input: &mut [u8], length: usize) {
    input[..2].copy_from_slice(&(length as u16).to_le_bytes());
}
