//! Random pairs of recordings.

use crate::batch::ends::Ends;
use crate::parting::Pair;
use crate::recording::{damage, make, Recording};
use crate::{Call, Random};
use model::{own_fields, LAST_CODE};

/// A recording has one operation more than a number below this; a few have more than that.
const LENGTH: u64 = 6;
const LONG: u64 = 60;
/// How many of a hundred recordings may be long.
const LONG_ONES: u64 = 3;
/// How many of a hundred recordings are sessions, whose operations follow each other as a host's do.
const SESSIONS: u64 = 20;
/// The room of a session.
const ROOM: usize = 192;
/// At most so many operations are put behind one of the two.
const MORE: u64 = 4;
/// How often each reason for bad numbers comes in a round.
const OF_EACH_REASON: usize = 5;

/// The operations of two recordings.
type Calls = [Vec<Call>; 2];

/// Makes pairs. What a recording ends with that cannot be read is made once for many of them.
pub struct Maker {
    ends: Ends,
}

impl Maker {
    pub fn new(random: &mut Random) -> Maker {
        Maker { ends: Ends::new(random) }
    }

    /// The pairs of a round: each kind of two that can be read; of each code, two that are unequal in each single number, in
    /// several and in the code; and for each reason bad numbers in the first, in the second and in both.
    pub fn round(&self, random: &mut Random) -> Vec<Pair> {
        let mut pairs: Vec<Calls> = KINDS.iter().map(|make| make(random)).collect();
        for code in 0..=LAST_CODE {
            pairs.extend((1..2 + fields_of(code)).map(|place| of_other_numbers(random, code, &[place])));
            let places = some_places(random, code);
            pairs.push(of_other_numbers(random, code, &places));
            pairs.push(of_other_codes(random, code));
        }
        let mut pairs: Vec<Pair> = pairs.iter().map(written).collect();
        for reason in (0..OF_EACH_REASON).flat_map(|_| 0..Ends::KINDS) {
            let bad = [[true, false], [false, true], [true, true]];
            pairs.extend(bad.map(|bad| self.of_bad_numbers(random, reason, bad)));
        }
        pairs.extend([damaged(random), damaged(random)]);
        pairs
    }

    /// Two of any kind, and a bad number in one of them or in both. That of the second has any reason, where both have one.
    fn of_bad_numbers(&self, random: &mut Random, reason: usize, [first, second]: [bool; 2]) -> Pair {
        let calls = random.one_of(&KINDS)(random);
        let mut pair = written(&calls);
        let at = place(random, calls[0].len() + 1);
        if first {
            pair.first = spoiled(&calls[0], at, self.ends.one_of(random, reason));
        }
        if second {
            let any = random.below(Ends::KINDS as u64) as usize;
            let end = self.ends.one_of(random, if first { any } else { reason });
            // Now and then both are bad at the same operation.
            let at = if random.percent(20) { at.min(calls[1].len()) } else { place(random, calls[1].len() + 1) };
            pair.second = spoiled(&calls[1], at, end);
        }
        pair
    }
}

/// Kinds of pairs that can be read.
const KINDS: [fn(&mut Random) -> Calls; 10] = [
    equal,
    both_empty,
    first_empty,
    second_empty,
    first_is_a_front,
    second_is_a_front,
    first_is_denser,
    second_is_denser,
    parted,
    unequal,
];

fn equal(random: &mut Random) -> Calls {
    let calls = operations(random);
    [calls.clone(), calls]
}

fn both_empty(_: &mut Random) -> Calls {
    Calls::default()
}

fn first_empty(random: &mut Random) -> Calls {
    [Vec::new(), operations(random)]
}

fn second_empty(random: &mut Random) -> Calls {
    [operations(random), Vec::new()]
}

fn first_is_a_front(random: &mut Random) -> Calls {
    let calls = operations(random);
    let front = 1 + random.below(calls.len() as u64) as usize;
    let more = operations(random);
    [calls[..front].to_vec(), [calls, more].concat()]
}

fn second_is_a_front(random: &mut Random) -> Calls {
    let [front, whole] = first_is_a_front(random);
    [whole, front]
}

/// From an operation on they have nothing in common, but by chance.
fn parted(random: &mut Random) -> Calls {
    let front = front(random);
    [0, 1].map(|_| [&front[..], &operations(random)].concat())
}

/// More operations in fewer bytes: some of two bytes each, and beside them fewer with large numbers.
fn first_is_denser(random: &mut Random) -> Calls {
    let front = front(random);
    let few = 1 + random.below(3);
    let many = few + 1 + random.below(MORE);
    let small: Vec<Call> = (0..many).map(|_| Call([7, random.below(128), 0, 0, 0, 0])).collect();
    let large: Vec<Call> =
        (0..few).map(|_| Call([random.one_of(&[1, 2, 3, 10]), u64::MAX, 1 << 63, 1, 2, 3])).collect();
    [small, large].map(|calls| [&front[..], &calls].concat())
}

fn second_is_denser(random: &mut Random) -> Calls {
    let [denser, other] = first_is_denser(random);
    [other, denser]
}

/// Unequal in one operation, whatever it is.
fn unequal(random: &mut Random) -> Calls {
    let code = random.below(LAST_CODE + 1);
    if random.percent(20) {
        return of_other_codes(random, code);
    }
    let places = some_places(random, code);
    of_other_numbers(random, code, &places)
}

/// Unequal in these numbers of one operation of this code. Either may have some operations more.
fn of_other_numbers(random: &mut Random, code: u64, places: &[usize]) -> Calls {
    let mut calls = operations(random);
    let at = place(random, calls.len());
    calls[at].0[0] = code;
    let mut other = calls.clone();
    for &place in places {
        other[at].0[place] = other_number(random, other[at].0[place]);
    }
    with_more(random, [calls, other])
}

/// Unequal in the code of one operation. Its other numbers are the same, or all of them anew.
fn of_other_codes(random: &mut Random, code: u64) -> Calls {
    let mut calls = operations(random);
    let at = place(random, calls.len());
    calls[at].0[0] = code;
    let mut other = calls.clone();
    if random.percent(50) {
        other[at] = make::operation(random);
    }
    other[at].0[0] = (code + 1 + random.below(LAST_CODE)) % (LAST_CODE + 1);
    with_more(random, [calls, other])
}

/// Some operations behind one of the two, or behind none.
fn with_more(random: &mut Random, [mut first, mut second]: Calls) -> Calls {
    let more: Vec<Call> = (0..=random.below(MORE)).map(|_| make::operation(random)).collect();
    match random.below(3) {
        0 => first.extend(more),
        1 => second.extend(more),
        _ => {}
    }
    [first, second]
}

/// Any numbers, or a session; one operation at least.
fn operations(random: &mut Random) -> Vec<Call> {
    let most = if random.percent(LONG_ONES) { LONG } else { LENGTH };
    let length = 1 + random.below(most);
    if random.percent(SESSIONS) {
        return Recording::random(random, ROOM, length as usize).calls;
    }
    (0..length).map(|_| make::operation(random)).collect()
}

/// What two have in common, none at all every other time.
fn front(random: &mut Random) -> Vec<Call> {
    if random.percent(50) {
        Vec::new()
    } else {
        operations(random)
    }
}

/// One of so many places, the first and the last more often.
fn place(random: &mut Random, places: usize) -> usize {
    match random.below(4) {
        0 => 0,
        1 => places - 1,
        _ => random.below(places as u64) as usize,
    }
}

/// Some of the cycles and fields of a code, two at least where it has so many.
fn some_places(random: &mut Random, code: u64) -> Vec<usize> {
    let own = 1 + fields_of(code);
    let chosen = random.number();
    let (one, other) = (random.below(own as u64) as usize, 1 + random.below(own.max(2) as u64 - 1) as usize);
    let always = [one, (one + other) % own];
    (0..own).filter(|place| always.contains(place) || chosen >> place & 1 == 1).map(|place| 1 + place).collect()
}

fn fields_of(code: u64) -> usize {
    own_fields(code).expect("a known code")
}

/// Another number: the next one, one that differs in one bit, often a high one, or any.
fn other_number(random: &mut Random, number: u64) -> u64 {
    match random.below(4) {
        0 => number.wrapping_add(1),
        1 => number ^ 1 << random.below(64),
        2 => number ^ 1 << (56 + random.below(8)),
        _ => match make::any_number(random) {
            any if any == number => !number,
            any => any,
        },
    }
}

fn written([first, second]: &Calls) -> Pair {
    Pair { first: Recording::of(first).bytes, second: Recording::of(second).bytes }
}

/// So many operations, and behind them bytes that cannot be read.
fn spoiled(calls: &[Call], operations: usize, end: &[u8]) -> Vec<u8> {
    [&Recording::of(&calls[..operations]).bytes, end].concat()
}

/// Two of any kind, with damage anywhere in one of them or in both, or noise.
fn damaged(random: &mut Random) -> Pair {
    let calls = random.one_of(&KINDS)(random);
    let mut damage = |calls: &[Call]| match random.below(3) {
        0 => damage::noise(random),
        1 => damage::anywhere(&Recording::of(calls), random),
        _ => Recording::of(calls).bytes,
    };
    Pair { first: damage(&calls[0]), second: damage(&calls[1]) }
}
