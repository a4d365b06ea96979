//! The bank view by the library, beside the model's and beside record reads. `BRB_SEED` repeats a run.

use compare::engine::Lent;
use compare::generate::{self, Flavour, Generator, SIZES};
use compare::planted::SEED;
use compare::seed::{self, say};
use compare::shrink::{shrink, with_part_dropped, with_smaller_number};
use compare::{planted_rules, Case, Engine, Library, Modelled, Random, Sequence};
use model::{buffer_size, room, Asked, Document01, Part, Refusal};
use std::fmt;

/// Each look is a call of each of the three functions.
const LOOKS: u64 = 400_000;
const OPERATIONS: usize = 1_000_000;
/// After so many operations of a sequence, and at its end, the state is looked at.
const STRIDE: usize = 32;
/// Fewer cases of a class than this prove nothing.
const LEAST: u64 = 1_000;

/// What the three functions are asked, and the room.
#[derive(Clone, Debug)]
struct Look {
    asked: Asked,
    room: Vec<u64>,
}

impl Look {
    fn random(random: &mut Random) -> Look {
        if random.percent(30) {
            return Look::inside(random);
        }
        let size = match random.below(10) {
            0..=6 => random.one_of(&SIZES),
            7 | 8 => random.one_of(&[0, 7, 9, 63, 65, u64::MAX]),
            _ => random.wide(8),
        };
        let bank = match random.below(10) {
            0..=3 => random.below(2),
            4..=8 => random.below(6),
            _ => random.wide(4),
        };
        let m = match random.below(10) {
            0..=3 => random.below(9),
            4..=8 => random.below(41),
            _ => random.wide(32),
        };
        let start = Look::random_start(random, size);
        let length = match (buffer_size(size), random.below(3)) {
            (Some(size), 0) => (room::needed(size) + random.below(3) as usize - 1).min(200),
            _ => random.below(201) as usize,
        };
        Look { asked: Asked { size, start, bank, m }, room: (0..length).map(|_| number(random)).collect() }
    }

    /// A record of a room that is long enough, mostly where the places end and where they go round.
    fn inside(random: &mut Random) -> Look {
        let size = random.one_of(&SIZES);
        let start = generate::start(random, size);
        let near = (size + random.below(4)).saturating_sub(start + 2);
        let record = if random.percent(70) { near.min(size - 1) } else { random.below(size) };
        let room = (0..3 * size + random.below(4)).map(|_| number(random)).collect();
        Look { asked: Asked { size, start, bank: record / 32, m: record % 32 }, room }
    }

    /// A start: one that the size has, mostly, and else its end, one past it, one that another size has, or any.
    fn random_start(random: &mut Random, size: u64) -> u64 {
        match random.below(10) {
            0..=5 => generate::start(random, buffer_size(size).map_or(64, |size| size as u64)),
            6 => size,
            7 => size.wrapping_add(1 + random.below(2)),
            8 => random.below(66),
            _ => random.wide(64),
        }
    }

    /// How two engines disagree, on one function or on the room after it.
    fn disagreement(&self, engines: [&dyn Engine; 2]) -> Option<String> {
        Part::ALL.into_iter().find_map(|part| {
            let lent = self.room.clone();
            let [left, right] = engines.map(|engine| engine.bank(&lent, self.asked, part));
            if left != right {
                let [l, r] = engines.map(|engine| engine.name());
                return Some(format!("{part:?}: {l} {left:?}, {r} {right:?}"));
            }
            (lent != self.room).then(|| format!("{part:?}: the room was written"))
        })
    }

    /// The class of what a function answered. A refusal counts for a reason where it is the only one, or where another one
    /// would follow.
    fn class(&self, answer: (u64, u64)) -> Option<usize> {
        let Asked { size, start, bank, m } = self.asked;
        let outside = [buffer_size(size).is_none(), bank > 3, m > 31];
        let too_short = (self.room.len() as u64) < size.saturating_mul(3);
        match answer.0 {
            0 => Some(self.shown_class(answer.1)),
            4 => Some(match (outside, start >= size, too_short) {
                (_, true, false) => 10,
                (_, false, true) => 11,
                (_, true, true) => 12,
                ([true, false, false], ..) => 6,
                ([false, true, false], ..) => 7,
                ([false, false, true], ..) => 8,
                _ => 9,
            }),
            7 if too_short => Some(17),
            7 => Some(match start - size {
                0 => 13,
                1 => 14,
                _ if start < 64 => 15,
                _ => 16,
            }),
            6 => Some(18 + usize::from(start != 0)),
            _ => None,
        }
    }

    /// The class of what is shown: a record by its place, or 0.
    fn shown_class(&self, value: u64) -> usize {
        let Asked { size, start, .. } = self.asked;
        let record = self.asked.record();
        match (record < size, value, start + record) {
            (false, ..) => 4,
            (true, 0, _) => 5,
            (true, _, place) if place + 1 < size => 0,
            (true, _, place) if place + 1 == size => 1,
            (true, _, place) if place == size => 2,
            _ => 3,
        }
    }
}

const CLASSES: [&str; 20] = [
    "0, below the last place",
    "0, at the last place",
    "0, gone round, at place 0",
    "0, gone round, above it",
    "0, past the size",
    "0, a 0 in the room",
    "4, the size",
    "4, the bank",
    "4, m",
    "4, several reasons",
    "4, where 7 would follow",
    "4, where 6 would follow",
    "4, where 7 and 6 would",
    "7, start is the size",
    "7, one above it",
    "7, above it, up to 63",
    "7, 64 or above",
    "7, where 6 would follow",
    "6, start 0",
    "6, start not 0",
];

impl Case for Look {
    fn simpler(&self) -> Box<dyn Iterator<Item = Self> + '_> {
        let rooms = with_part_dropped(&self.room).chain(with_smaller_number(&self.room));
        let Asked { size, start, bank, m } = self.asked;
        let asked = with_smaller_number(&[size, start, bank, m]).collect::<Vec<_>>().into_iter().map(|numbers| {
            let [size, start, bank, m] = std::array::from_fn(|place| numbers[place]);
            Look { asked: Asked { size, start, bank, m }, ..self.clone() }
        });
        Box::new(rooms.map(|room| Look { room, ..*self }).chain(asked))
    }
}

impl fmt::Display for Look {
    fn fmt(&self, f: &mut fmt::Formatter<'_>) -> fmt::Result {
        write!(f, "{}, room of {} numbers", self.asked, self.room.len())?;
        let set = self.room.iter().enumerate().filter(|(_, &number)| number != 0);
        set.into_iter().try_for_each(|(place, number)| write!(f, ", {number} at {place}"))
    }
}

/// A number of a room, 0 in some cases.
fn number(random: &mut Random) -> u64 {
    if random.percent(10) {
        0
    } else {
        random.number()
    }
}

/// Looks at random rooms until the library and another engine disagree, shrunk. `each` gets those on which they agree.
fn compare(other: &dyn Engine, random: &mut Random, mut each: impl FnMut(&Look)) -> Result<(), String> {
    let engines: [&dyn Engine; 2] = [&Library, other];
    for _ in 0..LOOKS {
        let look = Look::random(random);
        if look.disagreement(engines).is_some() {
            let shrunk = shrink(look, |simpler| simpler.disagreement(engines).is_some());
            return Err(format!("{shrunk}\n  {}", shrunk.disagreement(engines).unwrap_or_default()));
        }
        each(&look);
    }
    Ok(())
}

fn report(test: &str, classes: &[&str], met: &[[u64; 3]]) {
    let mut table = format!("  {:<28}{:>10}{:>10}{:>10}", "", "BRBINF", "BRBSRC", "BRBTGT");
    for (class, [inf, source, target]) in classes.iter().zip(met) {
        table += &format!("\n  {class:<28}{inf:>10}{source:>10}{target:>10}");
    }
    say(&format!("{test}\n{table}"));
    assert!(met.iter().flatten().all(|&met| met >= LEAST), "a class was met fewer than {LEAST} times:\n{table}");
}

#[test]
fn any_bank_of_any_room() {
    let seed = seed::of_test("bank view", seed::from_clock);
    let mut met = [[0; 3]; CLASSES.len()];
    let agreed = compare(&Modelled(Document01), &mut Random::new(seed), |look| {
        for part in Part::ALL {
            let answer = Library.bank(&look.room, look.asked, part);
            let class = look.class(answer).unwrap_or_else(|| panic!("seed {seed}: {look}: answer {answer:?}"));
            met[class][part as usize] += 1;
        }
    });
    agreed.unwrap_or_else(|how| panic!("seed {seed}: {how}"));
    report(&format!("bank view: {} calls agreed", 3 * LOOKS), &CLASSES, &met);
}

/// For a state's own size, start and BANK the view shows what a read of the register reads: at EL3, which has no traps, always,
/// and at the state's own level where the read is performed. The other banks are looked at too, with BANK set so.
#[test]
fn the_bank_view_is_a_record_read() {
    let seed = seed::of_test("bank view and reads", seed::from_clock);
    let mut random = Random::new(seed);
    let (mut done, mut states, mut met) = (0, 0, [[0; 3]; READS.len()]);
    while done < OPERATIONS {
        let (room, length) = (generate::room(&mut random), generate::length(&mut random));
        let flavour = random.one_of(&Flavour::ALL);
        let mut generator = Generator::new(&mut random, flavour);
        let mut lent = Sequence::fresh(room);
        for place in 1..=length {
            let call = generator.call(&lent.state);
            Library.step(&mut lent.state, &mut lent.room, call);
            if lent.state[1] != 0 && (place % STRIDE == 0 || place == length) {
                let own = lent.state[6] >> 28 & 3;
                for bank in [own, own ^ 1, own ^ 2, own ^ 3] {
                    let mut looked_at = lent.clone();
                    looked_at.state[6] ^= (own ^ bank) << 28;
                    check_reads(&looked_at, &mut met, seed);
                }
                states += 1;
            }
        }
        done += length;
    }
    report(&format!("bank view and reads: {states} states agreed, with each bank"), &READS, &met);
}

/// What is seen and read of a state: a record, not 0, by whether it has gone round, or 0 past the size.
const READS: [&str; 5] = ["bank 0", "bank 0, gone round", "bank 1", "bank 1, gone round", "past the size"];

/// Every record register in a state, seen and read.
fn check_reads(lent: &Lent, met: &mut [[u64; 3]; READS.len()], seed: u64) {
    let (size, start, bank) = (lent.state[1], lent.state[11], lent.state[6] >> 28 & 3);
    let [mut own, mut at_el3] = [lent.clone(), lent.clone()];
    at_el3.state[0] = 3;
    for (part, m) in Part::ALL.into_iter().flat_map(|part| (0..32).map(move |m| (part, m))) {
        let asked = Asked { size, start, bank, m };
        let (number, seen) = Library.bank(&lent.room, asked, part);
        let register = 32 * (1 + part as u64) + m;
        let read = Library.read(&mut at_el3.state, &mut at_el3.room, 0, register);
        let performed = Library.read(&mut own.state, &mut own.room, 0, register);
        let agree = number == 0 && read == (0, seen) && (performed.0 != 0 || performed.1 == seen);
        assert!(agree, "seed {seed}: register {register}: {seen:#x} seen, {read:x?} read, in {lent:x?}");
        if asked.record() >= size {
            met[4][part as usize] += 1;
        } else if seen != 0 {
            let gone_round = start + asked.record() >= size;
            met[2 * bank as usize + usize::from(gone_round)][part as usize] += 1;
        }
    }
}

planted_rules! {
    ("BANK is used without the size", BankWithoutSize {
        fn bank_shows(&self, room: &[u64], asked: Asked, part: Part) -> Result<u64, Refusal> {
            let shown = Document01.bank_shows(room, asked, part)?;
            let past = asked.record() >= asked.size;
            Ok(if past { room::number(room, asked.record() as usize, part) } else { shown })
        }
    })
    ("an m above 31 is accepted", LargeM {
        fn bank_shows(&self, room: &[u64], asked: Asked, part: Part) -> Result<u64, Refusal> {
            let next = asked.bank == 0 && (32..64).contains(&asked.m);
            Document01.bank_shows(room, if next { Asked { bank: 1, m: asked.m - 32, ..asked } } else { asked }, part)
        }
    })
    ("BANK loses its upper bits", BankCutOff {
        fn bank_shows(&self, room: &[u64], asked: Asked, part: Part) -> Result<u64, Refusal> {
            Document01.bank_shows(room, Asked { bank: asked.bank & 3, ..asked }, part)
        }
    })
    ("the room is looked at first", RoomFirst {
        fn bank_refusal(&self, room_numbers: usize, asked: Asked) -> Option<Refusal> {
            let short = asked.size.checked_mul(3).is_none_or(|needed| (room_numbers as u64) < needed);
            if short { Some(Refusal::RoomTooShort) } else { Document01.bank_refusal(room_numbers, asked) }
        }
    })
    ("source and target are exchanged", Exchanged {
        fn bank_shows(&self, room: &[u64], asked: Asked, part: Part) -> Result<u64, Refusal> {
            Document01.bank_shows(room, asked, Part::ALL[(3 - part as usize) % 3])
        }
    })
    ("the start is not looked at", BankWithoutStart {
        fn bank_place(&self, _: usize, _: usize, record: usize) -> usize {
            record
        }
    })
    ("6 comes before 7", BankRoomBeforeStart {
        fn bank_refusal(&self, room_numbers: usize, asked: Asked) -> Option<Refusal> {
            match Document01.bank_refusal(room_numbers, asked) {
                Some(Refusal::NotSound) if self.bank_room_too_short(room_numbers, asked) => Some(Refusal::RoomTooShort),
                other => other,
            }
        }
    })
    ("7 comes before 4", BankStartFirst {
        fn bank_refusal(&self, room_numbers: usize, asked: Asked) -> Option<Refusal> {
            let unsound = self.bank_start_unsound(asked);
            if unsound { Some(Refusal::NotSound) } else { Document01.bank_refusal(room_numbers, asked) }
        }
    })
    ("7 comes before the bank's and m's 4", BankStartBeforeM {
        fn bank_refusal(&self, room_numbers: usize, asked: Asked) -> Option<Refusal> {
            let unsound = buffer_size(asked.size).is_some() && self.bank_start_unsound(asked);
            if unsound { Some(Refusal::NotSound) } else { Document01.bank_refusal(room_numbers, asked) }
        }
    })
    ("a start that is the size is accepted", BankStartIsSize {
        fn bank_start_unsound(&self, asked: Asked) -> bool {
            asked.start > asked.size
        }
    })
    ("the start is judged by 64", BankStartBelow64 {
        fn bank_start_unsound(&self, asked: Asked) -> bool {
            asked.start >= 64
        }
    })
    ("the start loses its upper bits", BankStartCutOff {
        fn bank_shows(&self, room: &[u64], asked: Asked, part: Part) -> Result<u64, Refusal> {
            Document01.bank_shows(room, Asked { start: asked.start & 0xFFFF_FFFF, ..asked }, part)
        }
    })
    ("the start is not judged where the record is past the size", BankStartPastSize {
        fn bank_start_unsound(&self, asked: Asked) -> bool {
            asked.record() < asked.size && Document01.bank_start_unsound(asked)
        }
    })
    ("a bank goes round within itself", BankRoundWithin {
        fn bank_place(&self, size: usize, start: usize, record: usize) -> usize {
            32 * (record / 32) + Document01.bank_place(size.min(32), start % 32, record % 32)
        }
    })
    ("the records go round one place early", BankRoundEarly {
        fn bank_place(&self, size: usize, start: usize, record: usize) -> usize {
            if start + record + 1 < size { start + record } else { start + record + 1 - size }
        }
    })
    ("the records go round one place late", BankRoundLate {
        fn bank_place(&self, size: usize, start: usize, record: usize) -> usize {
            if start + record <= size { start + record } else { start + record - size }
        }
    })
    ("the records go back from the start", BankBackwards {
        fn bank_place(&self, size: usize, start: usize, record: usize) -> usize {
            (start + size - record) % size
        }
    })
}

#[test]
fn each_planted_error_is_found_and_shrunk() {
    let seed = seed::of_test("planted errors of the bank view", || SEED);
    for (words, wrong) in PLANTED {
        match compare(*wrong, &mut Random::new(seed), |_| {}) {
            Ok(()) => panic!("{words}: not found"),
            Err(how) => println!("planted: {words}\n  {how}"),
        }
    }
    say(&format!("planted errors of the bank view: all {} found", PLANTED.len()));
}
