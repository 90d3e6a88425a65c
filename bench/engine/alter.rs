//! Records altered by a byte or several, most of which no count takes over.

use crate::count::Phase;
use crate::random::Random;
use crate::record::{BYTES, CLOSED, HEAD, MARKS, PHASE, PRESENT, STEPS};
use crate::table::Routine;

/// What is altered.
#[derive(Clone, Copy)]
enum Part {
    Length,
    Contents,
    Phase,
    /// The phase, with numbers and present signals that go with it.
    Head,
    Closed,
    Steps,
    Present,
    Mark,
    /// A mark that is not idle, which gets another such mark.
    LiveMark,
    /// The marks of the two parts of a statement, which are exchanged where they differ.
    MarksOfParts,
    AfterTheMarks,
    AnyByte,
}

/// Each part as often as it is to be chosen.
const PARTS: [Part; 27] = [
    Part::Length,
    Part::Contents,
    Part::Phase,
    Part::Phase,
    Part::Head,
    Part::Head,
    Part::Head,
    Part::Closed,
    Part::Closed,
    Part::Steps,
    Part::Steps,
    Part::Present,
    Part::Present,
    Part::Mark,
    Part::Mark,
    Part::Mark,
    Part::Mark,
    Part::Mark,
    Part::Mark,
    Part::LiveMark,
    Part::LiveMark,
    Part::LiveMark,
    Part::LiveMark,
    Part::MarksOfParts,
    Part::MarksOfParts,
    Part::AfterTheMarks,
    Part::AnyByte,
];

/// Alters a record of a count of the routine once or several times.
pub fn altered(random: &mut Random, routine: &Routine, record: &[u8]) -> Vec<u8> {
    let mut record = record.to_vec();
    let most = [1, 1, 2, 6][random.below(4)];
    for _ in 0..random.between(1, most) {
        let part = PARTS[random.below(PARTS.len())];
        alter(random, routine, &mut record, part);
    }
    record
}

fn alter(random: &mut Random, routine: &Routine, record: &mut Vec<u8>, part: Part) {
    let n = routine.statements().len();
    match part {
        Part::Length => {
            let length = [BYTES - 1, BYTES + 1, random.below(BYTES)][random.below(3)];
            record.resize(length, 0);
        }
        Part::Contents => alter_byte(random, record, 0, HEAD),
        Part::Phase => {
            let phase = [0, 1, 2, 3, random.byte()][random.below(5)];
            put(record, HEAD + PHASE, &[phase]);
        }
        Part::Head => alter_head(random, record),
        Part::Closed => {
            let closed = [0, 1, u32::MAX, u32::MAX - 1, random.next() as u32][random.below(5)];
            put(record, HEAD + CLOSED, &closed.to_le_bytes());
        }
        Part::Steps => {
            let steps = [0, 1, u16::MAX, random.next() as u16][random.below(4)];
            put(record, HEAD + STEPS, &steps.to_le_bytes());
        }
        Part::Present => alter_present(random, routine.signals().len(), record),
        Part::Mark => {
            let mark = [0, 1, 2, 3, 4, random.byte()][random.below(6)];
            put(record, MARKS + random.below(n), &[mark]);
        }
        Part::LiveMark => alter_live_mark(random, record),
        Part::MarksOfParts => exchange_marks(random, routine, record),
        Part::AfterTheMarks => alter_byte(random, record, MARKS + n, BYTES),
        Part::AnyByte => alter_byte(random, record, 0, BYTES),
    }
}

fn alter_head(random: &mut Random, record: &mut [u8]) {
    let phase = [Phase::Resting, Phase::Open, Phase::Over][random.below(3)];
    put(record, HEAD + PHASE, &[phase.byte()]);
    if phase != Phase::Open {
        put(record, HEAD + STEPS, &[0; MARKS - HEAD - STEPS]);
    }
}

/// Makes all signals of the routine present, or one of them or of the others present or absent.
fn alter_present(random: &mut Random, g: usize, record: &mut [u8]) {
    let all = (1u128 << g) as u64;
    match random.below(3) {
        0 => put(record, HEAD + PRESENT, &all.wrapping_sub(1).to_le_bytes()),
        1 if g > 0 => flip(record, HEAD + PRESENT, random.below(g)),
        _ => flip(record, HEAD + PRESENT, random.below(64)),
    }
}

fn alter_live_mark(random: &mut Random, record: &mut [u8]) {
    let live: Vec<usize> = (MARKS..record.len())
        .filter(|&place| record[place] != 0)
        .collect();
    if let Some(place) = random.pick(&live) {
        record[place] = [1, 2, 3][random.below(3)];
    }
}

fn exchange_marks(random: &mut Random, routine: &Routine, record: &mut [u8]) {
    let pairs: Vec<[usize; 2]> = routine
        .statements()
        .iter()
        .filter_map(|statement| statement.parts().collect::<Vec<_>>().try_into().ok())
        .map(|pair: [usize; 2]| pair.map(|part| MARKS + part))
        .filter(|&[one, other]| one.max(other) < record.len() && record[one] != record[other])
        .collect();
    if let Some([one, other]) = random.pick(&pairs) {
        record.swap(one, other);
    }
}

fn flip(record: &mut [u8], place: usize, bit: usize) {
    if let Some(byte) = record.get_mut(place + bit / 8) {
        *byte ^= 1 << (bit % 8);
    }
}

/// Makes another byte of one at a place from `from` to below `to`.
fn alter_byte(random: &mut Random, record: &mut [u8], from: usize, to: usize) {
    if from < to {
        let place = random.between(from, to - 1);
        let other = random.between(1, 255) as u8;
        if let Some(byte) = record.get_mut(place) {
            *byte ^= other;
        }
    }
}

/// Writes bytes at a place, if the record is still long enough.
fn put(record: &mut [u8], place: usize, bytes: &[u8]) {
    if let Some(old) = record.get_mut(place..place + bytes.len()) {
        old.copy_from_slice(bytes);
    }
}
