//! The round buffer by the library: every start of every size, beside the model and by what was lent alone; starts that are not
//! sound; and the records as a plain list. `BRB_SEED` repeats a run.

use compare::batch::Batching;
use compare::engine::Lent;
use compare::generate::SIZES;
use compare::seed::{self, say};
use compare::{shifted, starts, Call, Engine, Library, Modelled, Random, Single};
use model::{Asked, Document01, Part};

const OPERATIONS: u64 = 2_000_000;
/// Fewer cases of a class than this prove nothing.
const LEAST: u64 = 1_000;

const ENGINES: [&dyn Engine; 2] = [&Library, &Modelled(Document01)];

/// P with recording and accesses permitted, and with traps of BRB IALL from EL1: to EL2, and to EL3.
const PERMITTED: u64 = 0x31;
const TO_EL2: u64 = 0x131;
const TO_EL3: u64 = 0x21;

/// A state in which events from and to EL0, EL1 and EL2 and all branches are recorded.
fn state(size: u64, start: u64) -> Vec<u64> {
    vec![1, size, 0, PERMITTED, 0xC0_001B, 0xC0_001B, 0x1_0000, 5, 0, 0, 9, start]
}

/// A room of so many numbers, of which no two are alike.
fn room(numbers: u64) -> Vec<u64> {
    (0..numbers).map(|number| 0xF0_0000 + number).collect()
}

/// Each size with each of its starts.
fn every_start() -> impl Iterator<Item = (u64, u64)> {
    SIZES.into_iter().flat_map(|size| (0..size).map(move |start| (size, start)))
}

/// Starts that are not sound for a size: its end, all up to 70, and numbers that are small ones where upper bits are lost.
fn unsound_starts(size: u64) -> impl Iterator<Item = u64> {
    let edges = [1 << 8, 1 << 32, 1 << 63, u64::MAX / 3 + 1, u64::MAX / 3 * 2 + 2, u64::MAX - 2];
    let far = edges.into_iter().flat_map(|edge| (0..3).map(move |more| edge + more));
    (size.max(1)..70).chain(far).chain((1..70).map(|below| u64::MAX - below))
}

/// The library's answer to an operation on this state and room, and what it leaves: the model's, and as it may.
fn done(state: &[u64], room: &[u64], call: Call) -> ((u64, u64), Lent) {
    let single = Single { state: state.to_vec(), room: room.to_vec(), call };
    let (answer, after) = single.compare(ENGINES).unwrap_or_else(|how| panic!("{single}: {how}"));
    let before = Lent { state: single.state.clone(), room: single.room.clone() };
    starts::check_written(&before, &after, call, answer.0).unwrap_or_else(|how| panic!("{single}: {how}"));
    (answer, after)
}

/// A recorded event writes the three numbers of the place below the start, going round, and no other.
#[test]
fn every_start_takes_a_record() {
    let events = Call::sequence("1 3 0 1 11 12 / 2 3 34 2 11 12 / 3 3 0 1 11 12 / 8 3 11 / 9 3 12 1");
    for ((size, start), more) in every_start().flat_map(|start| [(start, 0), (start, 5)]) {
        for &event in &events {
            let (mut state, mut expected) = (state(size, start), room(3 * size + more));
            state[9] = u64::from(event.code() == 9);
            let (answer, after) = done(&state, &expected, event);
            let place = (start + size - 1) % size;
            assert_eq!((answer, after.state[11]), ((0, 0), place), "{event} with size {size}, start {start}");
            let written = 3 * place as usize..3 * place as usize + 3;
            assert_ne!(after.room[written.start], expected[written.start], "BRBINF is another");
            expected[written.clone()].copy_from_slice(&after.room[written]);
            assert_eq!(after.room, expected, "{event} with size {size}, start {start}");
        }
    }
}

/// Every record register with each BANK, by a read and by the bank view: record r stands r places above the start, going
/// round, and what is not below the size is 0.
#[test]
fn every_start_shows_every_record() {
    for ((size, start), more) in every_start().flat_map(|start| [(start, 0), (start, 5)]) {
        let (mut state, room) = (state(size, start), room(3 * size + more));
        for (part, record) in Part::ALL.into_iter().flat_map(|part| (0..128).map(move |record| (part, record))) {
            let (bank, m) = (record / 32, record % 32);
            let place = 3 * ((start + record) % size) as usize + part as usize;
            let value = if record < size { room[place] } else { 0 };
            state[6] = 0x1_0000 | bank << 28;
            let (answer, _) = done(&state, &room, Call([5, 0, 32 * (1 + part as u64) + m, 0, 0, 0]));
            assert_eq!(answer, (0, value), "read with size {size}, start {start}, record {record}");
            let asked = Asked { size, start, bank, m };
            for engine in ENGINES {
                assert_eq!(engine.bank(&room, asked, part), (0, value), "{}: {asked}", engine.name());
                let short = &room[..3 * size as usize - 1];
                assert_eq!(engine.bank(short, asked, part), (6, 0), "{}: {asked}, no room", engine.name());
            }
        }
    }
}

/// What makes no record and clears none, each refusal but 7, 3 and 6 too: the level, P and the operation, and its answer.
const KEPT: [(u64, u64, &str, u64); 15] = [
    (1, TO_EL2, "7 3", 102),
    (1, TO_EL3, "7 3", 103),
    (2, TO_EL3, "7 3", 103),
    (0, PERMITTED, "7 3", 100),
    (3, PERMITTED, "1 3 0 0 11 12", 0),
    (3, PERMITTED, "8 3 11", 0),
    (3, PERMITTED, "4 3 0", 0),
    (1, PERMITTED, "6 3 3 128", 0),
    (1, PERMITTED, "10 3 0 1 2 3", 0),
    (1, PERMITTED, "5 3 0", 0),
    (1, PERMITTED, "11 3", 2),
    (1, PERMITTED, "1 3 4 0 11 12", 4),
    (1, PERMITTED, "0 3 9 0", 4),
    (1, PERMITTED, "9 3 11 1", 8),
    (1, PERMITTED, "4 3 0", 5),
];

#[test]
fn what_keeps_every_start() {
    for ((size, start), (level, platform, operation, number)) in every_start().flat_map(|s| KEPT.map(|kept| (s, kept)))
    {
        let mut state = state(size, start);
        (state[0], state[3]) = (level, platform);
        for call in Call::sequence(operation) {
            let (answer, after) = done(&state, &room(200), call);
            assert_eq!((answer.0, after.state[11]), (number, start), "{call} with size {size}, start {start}");
            assert_eq!(after.room, room(200), "{call} with size {size}, start {start}");
        }
    }
    for (size, start) in every_start() {
        for refused in Call::sequence("1 3 0 1 11 12 / 7 3 / 5 3 32 / 0 3 64 1") {
            let (answer, after) = done(&state(size, start), &room(3 * size - 1), refused);
            assert_eq!((answer, after.state), ((6, 0), state(size, start)), "{refused}");
        }
    }
}

/// A reset to each size and a performed BRB IALL clear the places of the size after them and put the start to 0.
#[test]
fn what_puts_every_start_to_0() {
    for (size, start) in every_start() {
        for cleared in Call::sequence("0 3 8 1 / 0 3 16 0 / 0 3 32 1 / 0 3 64 0 / 7 3") {
            let (answer, after) = done(&state(size, start), &room(200), cleared);
            let zeros = 3 * if cleared.code() == 0 { cleared.0[2] } else { size } as usize;
            assert_eq!((answer, after.state[11]), ((0, 0), 0), "{cleared} with size {size}, start {start}");
            assert_eq!(after.room, [vec![0; zeros], room(200)[zeros..].to_vec()].concat());
        }
    }
}

/// 7 to every operation, in a recording and as a batch too, and nothing changed.
#[test]
fn no_other_start_is_sound() {
    let mut tried = 0;
    for (size, start) in [0, 8, 16, 32, 64].into_iter().flat_map(|size| unsound_starts(size).map(move |s| (size, s))) {
        for code in 0..=11 {
            let (answer, after) = done(&state(size, start), &room(192), Call([code, 3, 8, 0, 0, 0]));
            assert_eq!((answer, after.state), ((7, 0), state(size, start)), "code {code}, size {size}, start {start}");
        }
        let (mut numbers, mut records) = (state(size, start), room(192));
        for run in [&[][..], &[0, 0, 8, 0], &[11]] {
            let recorded = Library.step_recorded(&mut numbers, &mut records, run, 0);
            assert_eq!(recorded, ((7, 0), 0), "size {size}, start {start}");
            assert_eq!(Library.batch(&mut numbers, &mut records, run, &mut [0; 4]), (7, 0));
        }
        assert_eq!((numbers, records), (state(size, start), room(192)));
        tried += 1;
    }
    say(&format!("round buffer: {tried} starts that are not sound"));
}

/// In the bank view 4 comes before 7, and 7 before 6.
#[test]
fn no_other_start_is_looked_at() {
    for (size, start) in SIZES.into_iter().flat_map(|size| unsound_starts(size).map(move |start| (size, start))) {
        for (room, part) in
            [room(0), room(3 * size - 1), room(200)].iter().flat_map(|r| Part::ALL.map(|part| (r, part)))
        {
            for engine in ENGINES {
                let answers = |asked: Asked| engine.bank(room, asked, part);
                let asked = Asked { size, start, bank: 0, m: 0 };
                assert_eq!(answers(asked), (7, 0), "{asked}");
                assert_eq!(answers(Asked { bank: 3, m: 31, ..asked }), (7, 0), "{asked}, past the size");
                for outside in [Asked { bank: 4, ..asked }, Asked { m: 32, ..asked }, Asked { size: size + 1, ..asked }]
                {
                    assert_eq!(answers(outside), (4, 0), "{outside}");
                }
            }
        }
    }
}

/// Eleven numbers, and fewer, hold no state, whatever they are.
#[test]
fn eleven_numbers_are_no_state() {
    for (numbers, code) in (0..12).flat_map(|numbers| (0..=11).map(move |code| (numbers, code))) {
        for whole in [state(8, 0), vec![0; 12]] {
            let (answer, after) = done(&whole[..numbers], &room(24), Call([code, 3, 8, 0, 0, 0]));
            assert_eq!((answer, &after.state[..]), ((7, 0), &whole[..numbers]), "{numbers} numbers, code {code}");
        }
    }
}

/// The records as a plain list, which every recorded event moves up, beside what the room and the bank view show.
#[test]
fn the_records_are_a_list() {
    let seed = seed::of_test("records as a list", seed::from_clock);
    match shifted::explore(&Library, &mut Random::new(seed), OPERATIONS) {
        Err((sequence, how)) => panic!("seed {seed}: {how}\n  {sequence}"),
        Ok(seen) => {
            let lines: Vec<String> =
                shifted::SEEN.iter().zip(seen.0).map(|(name, met)| format!("\n    {name:<40}{met:>12}")).collect();
            say(&format!("records as a list: {OPERATIONS} operations\n{}", lines.concat()));
            assert!(seen.0.iter().all(|&met| met >= LEAST), "a class was met fewer than {LEAST} times: {seen:?}");
        }
    }
}
