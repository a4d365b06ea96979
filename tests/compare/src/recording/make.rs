//! Random recordings and operations for them.

use crate::engine::Lent;
use crate::generate::{Flavour, Generator};
use crate::{Call, Random, Sequence};
use model::{own_fields, Document01, Recordings, Rules, LAST_CODE};
use std::ops::Range;

/// Operations with known codes, made as they go from a fresh state, and their bytes by the model.
#[derive(Clone, Debug, Default)]
pub struct Recording {
    pub calls: Vec<Call>,
    pub bytes: Vec<u8>,
    /// Where each operation starts.
    pub starts: Vec<usize>,
}

impl Recording {
    /// A recording of so many operations, for a room of so many numbers.
    pub fn random(random: &mut Random, room: usize, length: usize) -> Recording {
        let flavour = random.one_of(&Flavour::ALL);
        let mut generator = Generator::new(random, flavour);
        let mut lent = Sequence::fresh(room);
        let mut recording = Recording::default();
        while recording.calls.len() < length {
            let call = generator.call(&lent.state);
            if own_fields(call.code()).is_some() {
                Document01.step(&mut lent.state, &mut lent.room, call.0);
                recording.push(call);
            }
        }
        recording
    }

    /// So many operations of any kind.
    pub fn of_any(random: &mut Random, length: usize) -> Recording {
        Recording::of(&(0..length).map(|_| operation(random)).collect::<Vec<_>>())
    }

    /// These operations, which have known codes.
    pub fn of(calls: &[Call]) -> Recording {
        let mut recording = Recording::default();
        calls.iter().for_each(|&call| recording.push(call));
        recording
    }

    /// One more operation, which has a known code.
    pub fn push(&mut self, call: Call) {
        self.starts.push(self.bytes.len());
        self.bytes.extend(Document01.operation_bytes(call.0).expect("a known code"));
        self.calls.push(call);
    }

    /// What is lent before each operation and after the last, from a fresh state.
    pub fn lent(&self, room: usize) -> Vec<Lent> {
        let mut lent = Sequence::fresh(room);
        let mut all = vec![lent.clone()];
        for call in &self.calls {
            Document01.step(&mut lent.state, &mut lent.room, call.0);
            all.push(lent.clone());
        }
        all
    }

    /// The operation that a byte is in; the number of operations for the place after them all.
    pub fn operation_of(&self, byte: usize) -> usize {
        if byte >= self.bytes.len() {
            return self.calls.len();
        }
        self.starts.partition_point(|&start| start <= byte) - 1
    }

    /// Where each number stands.
    pub fn numbers(&self) -> Vec<Range<usize>> {
        let mut start = 0;
        let ends = (0..self.bytes.len()).filter(|&place| self.bytes[place] < 0x80);
        ends.map(|end| std::mem::replace(&mut start, end + 1)..end + 1).collect()
    }
}

/// Six numbers of any size with a known code.
pub fn operation(random: &mut Random) -> Call {
    let mut numbers = [0; 6];
    for number in &mut numbers {
        *number = any_number(random);
    }
    numbers[0] = random.below(LAST_CODE + 1);
    Call(numbers)
}

/// A number of any length, often where another byte begins to be needed.
pub fn any_number(random: &mut Random) -> u64 {
    let bound = 1u64.checked_shl(7 * random.below(10) as u32).unwrap_or(0);
    match random.below(8) {
        0 => bound,
        1 => bound.wrapping_sub(1),
        2 => bound + random.below(2),
        3 => random.one_of(&[0, 1, u64::MAX, u64::MAX - 1, 1 << 63]),
        _ => random.of_length(64),
    }
}

/// The six numbers as a reader gives them: 0 beyond the operation's own fields.
pub fn as_read(Call(mut numbers): Call) -> [u64; 6] {
    let own = own_fields(numbers[0]).expect("a known code");
    numbers[2 + own..].fill(0);
    numbers
}

/// A position in bytes of this length: mostly `usual`, or anywhere, past the end and near 2^64 too.
pub fn position(random: &mut Random, length: usize, usual: usize) -> usize {
    match random.below(24) {
        0 => random.below(length as u64 + 1) as usize,
        1 => length,
        2 => length + 1 + random.below(80) as usize,
        3 => usize::MAX - random.below(80) as usize,
        4 => random.one_of(&[1 << 31, 1 << 32, 1 << 63, (1 << 63) - 1, usize::MAX]),
        _ => usual,
    }
}
