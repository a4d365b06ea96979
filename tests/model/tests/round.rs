//! Document 02, Seven, by small examples: where records stand in the room, what moves the start, and which starts are sound.

mod session;

use model::{Answer, Asked, Document01, Part, Refusal, Rules, State};
use session::{Session, AT_EL1};

/// A branch at EL1 that is a record, with this source.
fn branch(source: u64) -> String {
    format!("1 1 0 0 {source} 0")
}

/// The sources of the records, by their places.
fn sources(session: &Session) -> Vec<u64> {
    session.room.chunks_exact(3).take(session.state[1] as usize).map(|place| place[1]).collect()
}

/// As [`AT_EL1`], with this size and start. No two numbers of the room are alike.
fn started(size: usize, start: usize) -> Session {
    let mut session = Session::fresh(200);
    session.run(&AT_EL1.replace("0 0 8 0", &format!("0 0 {size} 0")));
    session.room.iter_mut().zip(1000..).for_each(|(number, other)| *number = other);
    session.state[11] = start as u64;
    session
}

/// Each size with each of its starts.
fn every_start() -> impl Iterator<Item = (usize, usize)> {
    [8, 16, 32, 64].into_iter().flat_map(|size| (0..size).map(move |start| (size, start)))
}

/// The manual's example: eight records, and ten recorded events.
#[test]
fn ten_events_in_eight_places() {
    let mut session = Session::fresh(24);
    session.run(AT_EL1);
    assert_eq!(session.state[11], 0);
    for (event, start) in (1..=10).zip([7, 6, 5, 4, 3, 2, 1, 0, 7, 6]) {
        session.run(&branch(event));
        assert_eq!(session.state[11], start, "event {event}");
        assert_eq!(session.newest()[1], event);
    }
    assert_eq!(sources(&session), [8, 7, 6, 5, 4, 3, 10, 9]);
    for (m, event) in (0..8).zip((3..=10).rev()) {
        assert_eq!(session.run(&format!("5 0 {}", 64 + m)), Answer::Read(event), "record {m}");
    }
    assert_eq!(session.run("5 0 72"), Answer::Read(0), "record 8 is not below the size");
}

/// A recorded event writes three numbers, those of the place below the start, and no other.
#[test]
fn a_record_is_written_at_its_place_alone() {
    for (size, start) in every_start() {
        let mut session = started(size, start);
        let mut expected = session.room.clone();
        session.run(&branch(77));
        let place = if start == 0 { size - 1 } else { start - 1 };
        expected[3 * place..3 * place + 3].copy_from_slice(&[1 << 46 | 1 << 6 | 3, 77, 0]);
        assert_eq!((session.state[11], &session.room), (place as u64, &expected), "size {size}, start {start}");
    }
}

/// Record r is read at start + r, or at start + r less the size; the bank view shows the same.
#[test]
fn every_record_of_every_start_is_read_at_its_place() {
    for (size, start) in every_start() {
        let mut session = started(size, start);
        for record in 0..size {
            let place = (start + record) % size;
            let [bank, m] = [record as u64 / 32, record as u64 % 32];
            session.state[6] = bank << 28;
            for (part, number) in Part::ALL.into_iter().zip(1000 + 3 * place as u64..) {
                let read = session.run(&format!("5 0 {}", 32 * (1 + part as u64) + m));
                assert_eq!(read, Answer::Read(number), "size {size}, start {start}, record {record}");
                let asked = Asked { size: size as u64, start: start as u64, bank, m };
                assert_eq!(Document01.bank_shows(&session.room, asked, part), Ok(number), "{asked}");
            }
        }
    }
}

/// A reset to any size, with a start that the new size may not have: its own places are zero, and what an older and larger
/// buffer left past them stays.
#[test]
fn a_reset_puts_the_start_to_0() {
    for (size, start) in every_start() {
        for after in [8, 16, 32, 64] {
            let mut session = started(size, start);
            let past = session.room[3 * after..].to_vec();
            assert_eq!(session.run(&format!("0 0 {after} 0")), Answer::Done);
            assert_eq!((session.state[1], session.state[11]), (after as u64, 0));
            assert!(session.room[..3 * after].iter().all(|&number| number == 0) && session.room[3 * after..] == past);
        }
    }
}

/// A performed BRB IALL clears all places of the size, those before the start too, and puts the start to 0.
#[test]
fn a_performed_iall_puts_the_start_to_0() {
    for (size, start) in every_start() {
        let mut session = started(size, start);
        let past = session.room[3 * size..].to_vec();
        assert_eq!(session.run("7 0"), Answer::Done);
        assert_eq!(session.state[11], 0, "size {size}, start {start}");
        assert!(session.room[..3 * size].iter().all(|&number| number == 0) && session.room[3 * size..] == past);
    }
}

/// What makes no record keeps the start and every number of the room: a BRB IALL that is not performed too.
#[test]
fn what_keeps_the_start() {
    // The platform word and the level, and what is done there.
    let cases = [
        (0x131, 1, "7 0", Answer::Trap2),
        (0x21, 1, "7 0", Answer::Trap3),
        (0x21, 2, "7 0", Answer::Trap3),
        (0x31, 0, "7 0", Answer::Undefined),
        (0x31, 3, "1 0 0 0 5 6", Answer::Done),
        (0x31, 3, "4 0 0", Answer::Done),
        (0x31, 1, "5 0 3", Answer::Read(0x1_0000)),
        (0x31, 1, "6 0 3 128", Answer::Done),
        (0x31, 1, "10 0 0 1 2 3", Answer::Done),
        (0x31, 3, "8 0 4", Answer::Done),
    ];
    for (platform, level, operation, answer) in cases {
        let mut session = started(16, 5);
        let room = session.room.clone();
        (session.state[3], session.state[0]) = (platform, level);
        assert_eq!(session.run(operation), answer, "{operation} at EL{level}");
        assert_eq!((session.state[11], &session.room), (5, &room), "{operation} at EL{level}");
    }
}

/// No refusal moves the start.
#[test]
fn refusals_keep_the_start() {
    let mut session = started(16, 15);
    for (operation, refusal) in [
        ("11 0", Refusal::UnknownCode),
        ("1 0 4 0 5 6", Refusal::OutsideList),
        ("0 0 9 0", Refusal::OutsideList),
        ("9 0 4 1", Refusal::Halted),
        ("4 0 0", Refusal::NotPermitted),
    ] {
        session.refused(operation, refusal);
    }
    session.room.truncate(47);
    session.refused(&branch(1), Refusal::RoomTooShort);
    session.refused("7 0", Refusal::RoomTooShort);
    session.refused("0 0 64 0", Refusal::RoomTooShort);
    assert_eq!(session.state[11], 15);
}

/// 7 goes by the size: a start below it is sound, and before a reset 0 alone is. It comes before 2 and is asked of a reset.
#[test]
fn which_starts_are_sound() {
    for (size, start) in [0, 8, 16, 32, 64].into_iter().flat_map(|size| (0..70).map(move |start| (size, start))) {
        let mut session = Session::fresh(192);
        (session.state[0], session.state[1], session.state[11]) = (3, size, start);
        let sound = start < size || (size, start) == (0, 0);
        assert_eq!(Document01.sound(&session.state).is_some(), sound, "size {size}, start {start}");
        if !sound {
            ["0 0 8 0", "5 0 0", "11 0"].into_iter().for_each(|any| session.refused(any, Refusal::NotSound));
        }
    }
    for start in [u64::MAX, u64::MAX / 3 + 1, 1 << 63, 1 << 32, 256] {
        let state = [3, 64, 0, 0, 0, 0, 0, 0, 0, 0, 0, start];
        assert_eq!(Document01.sound(&state), None, "start {start}");
        assert_eq!(Document01.sound(&state[..State::NUMBERS - 1]), None, "eleven numbers");
    }
}
