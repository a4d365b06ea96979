use crate::parting::Numbers;
use crate::Engine;
use model::State;
use std::cmp::Ordering;

/// What single reads find in a recording, one after another from its first byte on.
#[derive(Clone, Debug, Default, PartialEq, Eq)]
pub struct Walk {
    /// How many bytes it has.
    pub length: usize,
    pub operations: Vec<[u64; 6]>,
    /// The place after each operation.
    pub ends: Vec<usize>,
    /// What the first bad number is refused with, and where it starts.
    pub bad: Option<(u64, u64)>,
}

impl Walk {
    pub fn of<E: Engine + ?Sized>(engine: &E, bytes: &[u8]) -> Walk {
        let mut walk = Walk { length: bytes.len(), ..Walk::default() };
        while walk.end() < bytes.len() {
            let mut place = [0; 6];
            match engine.recording_read(bytes, walk.end(), &mut place) {
                (0, next) => {
                    walk.operations.push(place);
                    walk.ends.push(next as usize);
                }
                // A reader names no byte, and a recorded step does.
                (number, _) => {
                    let (_, at) = engine.step_recorded(&mut [0; State::NUMBERS], &mut [], bytes, walk.end());
                    walk.bad = Some((number, at));
                    break;
                }
            }
        }
        walk
    }

    /// The place after all operations: there the one starts that cannot be read.
    pub fn end(&self) -> usize {
        self.ends.last().copied().unwrap_or(0)
    }

    /// The place after so many operations.
    fn after(&self, operations: usize) -> usize {
        operations.checked_sub(1).map_or(0, |last| self.ends[last])
    }

    /// What is answered of this recording beside itself.
    pub fn alone(&self) -> Numbers {
        match self.bad {
            Some((number, at)) => [number, 1, at, 0, 0, 0, 0, 0, 0],
            None => [0, 0, 0, self.ends.len() as u64, 0, 0, 1, self.length as u64, 0],
        }
    }

    /// The number of the first pair that is unequal, of those that can be read.
    pub fn unequal([first, second]: &[Walk; 2]) -> Option<usize> {
        first.operations.iter().zip(&second.operations).position(|(one, other)| one != other)
    }

    /// What has to be answered of two recordings. Equal operations are equal bytes, so that those at the front are as many as
    /// end where the bytes are still alike.
    pub fn numbers(walks: &[Walk; 2], [first, second]: [&[u8]; 2]) -> Numbers {
        for (walk, which) in walks.iter().zip(1..) {
            if let Some((number, at)) = walk.bad {
                return [number, which, at, 0, 0, 0, 0, 0, 0];
            }
        }
        let alike = first.iter().zip(second).take_while(|(one, other)| one == other).count();
        let equal = walks[0].ends.iter().take_while(|&&end| end <= alike).count();
        let [one, other] = walks.each_ref().map(|walk| walk.operations.get(equal));
        let differing = one.zip(other).map_or(0, |(one, other)| bits(one, other));
        let counts = walks.each_ref().map(|walk| walk.ends.len());
        let (ends_first, rest_of) = match counts[0].cmp(&counts[1]) {
            Ordering::Less => (1, 2),
            Ordering::Equal => (0, 1),
            Ordering::Greater => (2, 1),
        };
        let longer = &walks[rest_of - 1];
        let rest_at = longer.after(counts[2 - rest_of]);
        let rest = [rest_of, rest_at, longer.length - rest_at].map(|number| number as u64);
        [0, 0, 0, equal as u64, ends_first, differing, rest[0], rest[1], rest[2]]
    }
}

/// A bit for each of the six numbers that is not the same, or for the code alone.
fn bits(one: &[u64; 6], other: &[u64; 6]) -> u64 {
    let unequal = (0..6).filter(|&place| one[place] != other[place]);
    match unequal.fold(0, |bits, place| bits | 1 << place) {
        bits if bits & 1 == 1 => 1,
        bits => bits,
    }
}
