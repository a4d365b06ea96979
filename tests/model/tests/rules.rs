//! Document 01's rules by small examples: the marked cases P9 to P11, each refusal, and the easy errors; and document 02's
//! rules on BRB IALL, on halts and on freezes.

mod session;

use model::{Answer, BranchType, Document01, Refusal, Rules, State};
use session::{Session, AT_EL1};

fn recorded_types(filter: u64) -> Vec<u64> {
    let mut recorded = Vec::new();
    for kind in BranchType::ALL.map(|kind| kind as u64) {
        let mut session = Session::fresh(24);
        session.run(AT_EL1);
        session.run(&format!("6 0 3 {filter} / 7 0 / 1 0 {kind} 0 5 6"));
        if session.newest()[0] != 0 {
            recorded.push(kind);
        }
    }
    recorded
}

/// P9 to P11.
#[test]
fn marked_filter_words() {
    assert_eq!(recorded_types(0), []);
    assert_eq!(recorded_types(0x10000), [0, 1, 2, 3, 5, 8]);
    assert_eq!(recorded_types(0x30000), [1, 2, 3, 5, 8]);
}

#[test]
fn a_reset_zeroes_its_records_and_no_more() {
    let mut session = Session::fresh(30);
    assert_eq!(session.run("0 99 8 1 5 5"), Answer::Done);
    assert_eq!(session.state, [3, 8, 1, 0, 0, 0, 0, 0, 1, 0, 0, 0]);
    assert_eq!(session.room[..24], [0; 24]);
    assert_eq!(session.room[24..], [7; 6]);
}

#[test]
fn refusals() {
    let mut session = Session::fresh(24);
    session.refused("11 0", Refusal::UnknownCode);
    session.refused("1 0 99", Refusal::NotReset);
    for outside in ["0 0 0", "0 0 9", "0 0 8 2"] {
        session.refused(outside, Refusal::OutsideList);
    }
    session.refused("0 0 16 0", Refusal::RoomTooShort);
    session.run(AT_EL1);
    session.refused("11 0", Refusal::UnknownCode);
    for outside in ["1 0 4", "1 0 0 2", "2 0 33 1", "2 0 34 4", "3 0 4", "3 0 1 2", "4 0 128", "5 0 5", "6 0 128"] {
        session.refused(outside, Refusal::OutsideList);
    }
    for level in ["2 0 34 0", "3 0 2", "3 0 3", "4 0 0"] {
        session.refused(level, Refusal::NotPermitted);
    }
    session.run("2 0 34 2");
    session.refused("2 0 34 1", Refusal::NotPermitted);
    session.run("3 0 0");
    session.refused("3 0 0", Refusal::NotPermitted);
}

#[test]
fn levels_2_and_1_are_not_always_there() {
    let mut session = Session::fresh(24);
    session.run("0 0 8 0");
    session.refused("3 0 2", Refusal::NotPermitted);
    session.run("4 0 5");
    session.refused("3 0 1", Refusal::NotPermitted);
    assert_eq!(session.run("3 0 2"), Answer::Done);
}

#[test]
fn unsound_states() {
    let sound = [3, 8, 0, 0, 0, 0, 0, 1_048_576, 1, 1, u64::MAX, 7];
    let numbers = [(0, 4), (0, 2), (1, 9), (2, 2), (3, 128), (3, 1 << 14), (4, 4), (5, 1 << 24), (6, 1)];
    let mut room = [0; 24];
    for (place, number) in numbers.into_iter().chain([(7, 1_048_577), (8, 2), (9, 2), (11, 8)]) {
        let mut state = sound;
        state[place] = number;
        let answer = Document01.step(&mut state, &mut room, [11, 0, 0, 0, 0, 0]);
        assert_eq!(answer, Answer::Refused(Refusal::NotSound), "state number {place} is {number}");
    }
    let mut short = [0; State::NUMBERS - 1];
    let answer = Document01.step(&mut short, &mut room, [0, 0, 8, 0, 0, 0]);
    assert_eq!(answer, Answer::Refused(Refusal::NotSound));
}

/// "Half-source: BRBTGT and level 0." An exception from EL1 to EL3, controlled by EL3 recording.
#[test]
fn half_records_hide_a_side() {
    let mut session = Session::fresh(24);
    session.run(&AT_EL1.replace("0 0 8 0", "0 0 8 1").replace("4 0 49", "4 0 113"));
    session.run("6 0 1 12582937"); // E1BRE off: EL1 is prohibited
    session.run("2 0 34 3 11 12");
    assert_eq!(session.newest(), [1 << 46 | 0x22 << 8 | 3 << 6 | 1, 0, 12], "half-target");
    session.run("3 5 1 1 13 14");
    assert_eq!(session.newest(), [5 << 32 | 7 << 8 | 1 << 5 | 2, 13, 0], "half-source");
}

/// "BANK without the size": record 32 of a buffer of 8 is 0, whatever stands in the room.
#[test]
fn a_read_past_the_size_is_0() {
    let mut session = Session::fresh(192);
    assert_eq!(session.run("0 0 8 0 / 6 0 3 268435456 / 5 0 32"), Answer::Read(0));
    assert_eq!(session.run("0 0 8 0 / 5 0 40"), Answer::Read(0));
}

#[test]
fn occasions_end_with_the_record() {
    let mut session = Session::fresh(24);
    session.run(AT_EL1);
    session.run("1 3 0 0 0 0");
    assert_eq!(session.newest()[0], 1 << 46 | 1 << 6 | 3, "no record was made since the reset");
    session.run("1 3 0 0 0 0");
    assert_eq!(session.newest()[0], 3 << 32 | 1 << 6 | 3);
    session.run("6 0 1 12582931 / 6 0 1 12582939 / 1 3 0 0 0 0");
    assert_eq!(session.newest()[0], 1 << 46 | 1 << 6 | 3, "a write turned counting on");
    session.run("6 0 1 12582939 / 1 3 0 0 0 0");
    assert_eq!(session.newest()[0], 3 << 32 | 1 << 6 | 3, "the same value again is no occasion");
    session.run("6 0 3 65664 / 6 0 3 65536 / 1 3 0 0 0 0");
    assert_eq!(session.newest()[0], 1 << 46 | 1 << 6 | 3, "a write cleared PAUSED");
    session.run("7 600 / 1 3 0 1 0 0");
    assert_eq!(session.newest()[0], 1 << 46 | 1 << 6 | 1 << 5 | 3, "a BRB IALL was performed");
    assert_eq!((session.state[11], &session.room[..21]), (7, &[0; 21][..]));
    session.run("1 3 0 0 0 0");
    assert_eq!(session.newest()[0], 3 << 32 | 1 << 6 | 3, "the count after that one is known again");
}

/// "BRB IALL sets every record to zero and lets the count run on": its own cycles are added, and what was counted stays.
#[test]
fn a_performed_iall_lets_the_count_run_on() {
    let mut session = Session::fresh(24);
    session.run(AT_EL1);
    session.run("1 3 0 0 0 0 / 5 4 1");
    assert_eq!(session.state[7..9], [4, 0]);
    assert_eq!(session.run("7 600"), Answer::Done);
    assert_eq!(session.state[7..9], [604, 1]);
    assert_eq!(session.room, [0; 24]);
    session.run("7 5 / 5 1 1");
    assert_eq!(session.state[7..9], [610, 1], "a second one and a read change no more than the count");
    session.run("1 3 0 0 0 0");
    assert_eq!(session.state[7..9], [0, 0]);
}

/// "A trapped or undefined one is not": the next count is known and has its cycles, and the records stand.
#[test]
fn an_iall_that_is_not_performed_is_no_occasion() {
    // The platform word, an event from EL1 that is a record, the level that it goes to, the answer there.
    let cases = [
        ("4 0 305", "3 0 1 0 0 0", 1, Answer::Trap2),
        ("4 0 33", "3 0 1 0 0 0", 1, Answer::Trap3),
        ("4 0 33", "2 0 34 2 0 0", 2, Answer::Trap3),
        ("4 0 49", "3 0 0 0 0 0", 0, Answer::Undefined),
    ];
    for (platform, event, level, answer) in cases {
        let mut session = Session::fresh(24);
        session.run(&AT_EL1.replace("4 0 49", platform));
        session.run(event);
        let older = session.newest().to_vec();
        assert_eq!(session.run("7 600"), answer);
        session.run("1 3 0 0 0 0");
        assert_eq!(session.newest()[0], 0x22D << 32 | level << 6 | 3, "{answer:?} at EL{level}");
        assert_eq!(session.next(), older);
    }
}

/// Every accepted operation that "began at a prohibited level" is an occasion, a BRB IALL that is not performed too.
#[test]
fn an_iall_at_a_prohibited_level_is_an_occasion() {
    let mut session = Session::fresh(24);
    session.run(&AT_EL1.replace("4 0 49", "4 0 2353"));
    session.run("1 0 0 0 0 0 / 6 0 1 12582937"); // E1BRE off: EL1 is prohibited
    assert_eq!(session.state[7..9], [0, 0], "the write began where recording was not prohibited");
    assert_eq!(session.run("7 600"), Answer::Trap2);
    assert_eq!(session.state[7..9], [600, 1]);

    session.run(AT_EL1);
    session.run("6 0 1 12582938 / 3 0 0 0 0 0"); // E0BRE off: EL0 is prohibited, and the return a half-source record
    assert_eq!(session.state[7..9], [0, 0]);
    assert_eq!(session.run("7 600"), Answer::Undefined);
    assert_eq!(session.state[7..9], [600, 1]);
}

#[test]
fn e2h_redirects_register_1_at_el2() {
    let mut session = Session::fresh(24);
    session.run("0 0 8 0 / 4 0 57 / 6 0 1 1 / 6 0 2 2 / 3 0 2 0 0 0");
    assert_eq!(session.run("5 0 1"), Answer::Read(2));
    session.run("6 0 1 3");
    assert_eq!(session.state[4..6], [1, 3]);
}

/// The manual's example: 100 cycles after a record a halt at EL1, and 5,000 later a resume there.
#[test]
fn a_halt_and_a_resume_are_half_records() {
    let mut session = Session::fresh(24);
    session.run(AT_EL1);
    session.run("1 0 0 0 0 0 / 8 100 4100");
    assert_eq!(session.newest(), [100 << 32 | 0x21 << 8 | 2, 4100, 0], "half-source, with a known count and level 0");
    assert_eq!(session.state[7..10], [0, 0, 1]);
    session.run("9 5000 4104 1");
    assert_eq!(session.newest(), [1 << 46 | 0x39 << 8 | 1 << 6 | 1, 0, 4104], "half-target, with an unknown count");
    assert_eq!(session.state[7..10], [0, 0, 0]);
    session.run("1 7 0 0 0 0");
    assert_eq!(session.newest()[0], 7 << 32 | 1 << 6 | 3, "the count after that one is known again");
}

/// "A halt from a prohibited level makes no record", a resume to one neither; an event of either kind still happens.
#[test]
fn halts_and_resumes_on_prohibited_levels_make_no_record() {
    let mut session = Session::fresh(24);
    session.run(AT_EL1);
    session.run("1 0 0 0 0 0 / 6 0 1 12582937"); // E1BRE off: EL1 is prohibited, EL0 is not
    let newest = session.newest().to_vec();
    session.run("8 1 4100");
    assert_eq!((session.newest(), session.state[9]), (&newest[..], 1));
    session.run("9 1 4104 1");
    assert_eq!((session.newest(), session.state[9]), (&newest[..], 0));
    session.run("8 1 4100 / 9 1 4104 0");
    assert_eq!(session.newest(), [1 << 46 | 0x39 << 8 | 1, 0, 4104], "to EL0");
    session.run("8 5 4100");
    assert_eq!(session.newest(), [5 << 32 | 0x21 << 8 | 2, 4100, 0], "from EL0, 5 cycles after the resume's record");
}

/// "The branch filter does not touch either; PAUSED still does", and no control bit is asked.
#[test]
fn no_filter_and_no_control_is_asked() {
    let mut session = Session::fresh(24);
    for filter in [0, 0x1_0000, 0x7E_0000, 0x7F_0000] {
        session.run(AT_EL1);
        session.run(&format!("6 0 3 {filter} / 6 0 1 2 / 8 0 11"));
        assert_eq!(session.newest(), [1 << 46 | 0x21 << 8 | 2, 11, 0], "filter {filter:#x}");
        session.run("9 0 12 1");
        assert_eq!(session.newest(), [1 << 46 | 0x39 << 8 | 1 << 6 | 1, 0, 12], "filter {filter:#x}");
    }
    session.run(AT_EL1);
    session.run("6 0 3 65664 / 8 0 11 / 9 0 12 1");
    assert_eq!((session.newest(), session.state[9]), (&[0; 3][..], 0), "PAUSED");
}

/// 8 comes after 4 and before 5 and 6; 2 and 3 come before it.
#[test]
fn what_is_refused_while_halted_or_not() {
    let mut session = Session::fresh(24);
    session.refused("9 0 4 1", Refusal::NotReset);
    session.refused("8 0 4", Refusal::NotReset);
    session.run(AT_EL1);
    session.refused("9 0 4 1", Refusal::Halted);
    session.refused("9 0 4 4", Refusal::OutsideList);
    session.run("8 0 4");
    for refused in ["1 0 0", "2 0 34 1", "3 0 1", "8 0 4", "2 0 34 0", "3 0 2"] {
        session.refused(refused, Refusal::Halted);
    }
    for outside in ["1 0 4", "2 0 33 1", "3 0 4", "9 0 4 4", "0 0 9"] {
        session.refused(outside, Refusal::OutsideList);
    }
    session.refused("11 0", Refusal::UnknownCode);
    session.refused("4 0 0", Refusal::NotPermitted);
    session.room.truncate(23);
    session.refused("8 0 4", Refusal::Halted);
    session.refused("9 0 4 1", Refusal::RoomTooShort);
}

/// A resume goes to any level but a 2 or a 1 that is not there, also up.
#[test]
fn a_resume_may_go_up() {
    let mut session = Session::fresh(24);
    for level in 0..4 {
        session.run(AT_EL1);
        session.run("3 0 0 / 8 0 4");
        assert_eq!(session.run(&format!("9 0 4 {level}")), Answer::Done);
        assert_eq!((session.state[0], session.state[9]), (level, 0));
    }
    session.run("0 0 8 0 / 8 0 4");
    session.refused("9 0 4 2", Refusal::NotPermitted);
    session.run("4 0 5"); // NS and TGE, handed in while halted at EL3
    session.refused("9 0 4 1", Refusal::NotPermitted);
    assert_eq!(session.run("9 0 4 2"), Answer::Done);
}

/// "Register accesses while halted follow the level's rules", and each is an occasion, as every operation that begins halted.
#[test]
fn accesses_while_halted() {
    let mut session = Session::fresh(24);
    session.run(AT_EL1);
    session.run("1 0 0 0 0 0 / 8 3 4");
    assert_eq!(session.run("5 1 0"), Answer::Read(0x5008));
    assert_eq!(session.state[7..10], [1, 1, 1]);
    assert_eq!(session.run("5 1 2"), Answer::Undefined);
    session.run("6 1 1 12582937"); // E1BRE off: the resume makes no record
    session.run("9 1 4 1 / 6 1 1 12582939");
    assert_eq!(session.state[7..10], [5, 1, 0]);
    session.run("1 1 0 0 0 0");
    assert_eq!(session.newest()[0], 1 << 46 | 1 << 6 | 3, "the count after a resume without a record is unknown");

    session.run(&AT_EL1.replace("4 0 49", "4 0 305"));
    session.run("8 0 4");
    assert_eq!(session.run("7 1"), Answer::Trap2);
    session.run(&AT_EL1.replace("4 0 49", "4 0 33"));
    session.run("8 0 4");
    assert_eq!(session.run("5 1 32"), Answer::Trap3);
}

#[test]
fn a_reset_ends_a_halt() {
    let mut session = Session::fresh(24);
    session.run(AT_EL1);
    session.run("8 0 4 / 0 0 8 1");
    assert_eq!(session.state, [3, 8, 1, 0, 0, 0, 0, 0, 1, 0, 0, 0]);
    // A state of size 0 that is halted is sound, and takes nothing but a reset.
    session.state = [0, 0, 0, 0, 0, 0, 0, 0, 0, 1, 0, 0];
    session.refused("9 0 4 1", Refusal::NotReset);
    assert_eq!(session.run("0 0 8 0"), Answer::Done);
    assert_eq!(session.state[9], 0);
}

/// BRBCR_EL1 or BRBCR_EL2 of [`AT_EL1`], with FZP and this TS.
fn with_ts(ts: u64) -> u64 {
    12_582_939 | 1 << 8 | ts << 5
}

/// As [`AT_EL1`], with these values in BRBCR_EL1 and BRBCR_EL2.
fn at_el1(cr1: u64, cr2: u64) -> String {
    let [el1, el2] = [(1, cr1), (2, cr2)].map(|(register, value)| format!("6 0 {register} {value}"));
    AT_EL1.replace("6 0 1 12582939", &el1).replace("6 0 2 12582939", &el2)
}

/// The TS of BRBCR_EL2 chooses the time, or that of BRBCR_EL1 where it is 0: the physical count, 1,000, less the virtual
/// offset, 400, less the guest offset, 700, or as it is; 0 where both are 0.
#[test]
fn which_time_a_freeze_keeps() {
    // A row a TS of BRBCR_EL2, and in it a time for each TS of BRBCR_EL1.
    let times = [[0, 600, 300, 1000], [600; 4], [300; 4], [1000; 4]];
    for (group, ts2, ts1) in (0..32).map(|case| (case / 16, case / 4 % 4, case % 4)) {
        let (cr1, cr2) = (with_ts(ts1), with_ts(ts2));
        let mut session = Session::fresh(24);
        session.run(&at_el1(cr1, cr2));
        session.run("1 0 0 0 0 0");
        let room = session.room.clone();
        assert_eq!(session.run(&format!("10 40 {group} 1000 400 700")), Answer::Done);
        let time = times[ts2 as usize][ts1 as usize];
        // PAUSED and the time; its cycles count, and it is no occasion and no record.
        assert_eq!(session.state, [1, 8, 0, 49, cr1, cr2, 0x1_0080, 40, 0, 0, time, 7], "group {group}, {ts1}, {ts2}");
        assert_eq!(session.room, room);
    }
}

/// A difference is taken modulo 2^64, with the virtual offset and with the guest's.
#[test]
fn an_offset_above_the_count_wraps() {
    const HALF: u64 = 1 << 63;
    let differences = [
        (1000, 1500, 0xFFFF_FFFF_FFFF_FE0C),
        (0, 0, 0),
        (5, 5, 0),
        (5, 6, u64::MAX),
        (6, 5, 1),
        (0, 1, u64::MAX),
        (0, HALF, HALF),
        (0, u64::MAX, 1),
        (HALF, HALF + 1, u64::MAX),
        (HALF, u64::MAX, HALF + 1),
        (u64::MAX, 0, u64::MAX),
        (u64::MAX, u64::MAX, 0),
    ];
    for (count, offset, time) in differences {
        for (ts, offsets) in [(1, format!("{offset} 77")), (2, format!("77 {offset}"))] {
            let mut session = Session::fresh(24);
            session.run(&at_el1(with_ts(ts), with_ts(0)));
            session.run(&format!("10 0 0 {count} {offsets}"));
            assert_eq!(session.state[10], time, "TS {ts}: {count} less {offset}");
            assert_eq!(session.run("5 0 4"), Answer::Read(time));
        }
    }
}

/// A freeze that is not asked for, or is at a prohibited level, or in Debug state, or after another, keeps the old time. Its
/// cycles count, and it is an occasion where it began at a prohibited level or in Debug state, as every operation.
#[test]
fn why_a_freeze_does_not_happen() {
    let (both, without) = (with_ts(3), with_ts(3) & !(1 << 8));
    let prohibited = with_ts(3) & !2;
    // The control registers, the group, what comes before the freeze, and whether that one is an occasion.
    let cases = [
        ((without, both), 0, "5 0 1".into(), 0),
        ((both, without), 1, "5 0 1".into(), 0),
        ((without, without), 0, "5 0 1".into(), 0),
        ((both, both), 0, format!("6 0 1 {prohibited}"), 1),
        ((both, both), 1, format!("6 0 1 {prohibited}"), 1),
        ((both, both), 0, "8 0 4".into(), 1),
        ((both, both), 1, "8 0 4".into(), 1),
        ((both, both), 0, "6 0 3 65664".into(), 0),
        ((both, both), 1, "6 0 3 65664".into(), 0),
    ];
    for ((cr1, cr2), group, before, occasion) in cases {
        let mut session = Session::fresh(24);
        session.run(&at_el1(cr1, cr2));
        session.run("1 0 0 0 0 0");
        session.run(&before);
        session.state[10] = 77;
        let mut expected = session.state;
        assert_eq!((expected[7], expected[8]), (0, 0), "nothing was an occasion before");
        (expected[7], expected[8]) = (5, occasion);
        assert_eq!(session.run(&format!("10 5 {group} 99 0 0")), Answer::Done);
        assert_eq!(session.state, expected, "group {group} with {cr1:#x} and {cr2:#x} after {before}");
    }
}

/// The group chooses the register whatever the level is, and BRBCR_EL2's TS goes first where EL2 is not enabled too.
#[test]
fn the_level_says_nothing_of_register_and_ts() {
    let (fzp, without) = (with_ts(3), with_ts(1) & !(1 << 8));
    let mut session = Session::fresh(24);
    session.run(&at_el1(fzp, without));
    session.run("2 0 34 2 0 0 / 10 0 0 50 20 0");
    assert_eq!((session.state[0], session.state[6], session.state[10]), (2, 0x1_0080, 30), "group 0 at EL2");
    session.run(&at_el1(without, fzp));
    session.run("3 0 0 0 0 0 / 10 0 1 50 20 0");
    assert_eq!((session.state[0], session.state[6], session.state[10]), (0, 0x1_0080, 50), "group 1 at EL0");
    session.run(&format!("0 0 8 1 / 4 0 64 / 6 0 1 {} / 6 0 2 {without} / 10 0 0 50 20 0", with_ts(3)));
    assert_eq!((session.state[0], session.state[6], session.state[10]), (3, 0x80, 30), "at EL3, EL2 not enabled");
}

/// A freeze with both TS 0 keeps 0, which replaces an older time; PAUSED alone of BRBFCR_EL1 changes.
#[test]
fn a_time_of_0_replaces_an_older_one() {
    let mut session = Session::fresh(24);
    session.run(&at_el1(with_ts(3), with_ts(0)));
    session.run("6 0 3 813629440 / 10 0 0 77 0 0"); // BANK 3, EnI and all filter bits
    assert_eq!((session.state[6], session.state[10]), (0x307F_0080, 77));
    session.run("10 0 1 99 0 0");
    assert_eq!(session.state[10], 77, "a second overflow before PAUSED is cleared");
    session.run(&format!("6 0 3 0 / 6 0 1 {} / 10 0 1 99 0 0", with_ts(0)));
    assert_eq!((session.state[6], session.state[10]), (0x80, 0));
}

/// No event is recorded after a freeze until a write clears PAUSED; the count of the record after that is unknown.
#[test]
fn nothing_is_recorded_until_paused_is_cleared() {
    let mut session = Session::fresh(24);
    session.run(&at_el1(with_ts(3), with_ts(3)));
    session.run("1 3 0 0 0 0 / 1 3 0 0 0 0");
    let room = session.room.clone();
    session.run("10 1 0 77 0 0 / 1 1 0 0 0 0 / 2 1 34 2 0 0 / 3 1 1 0 0 0 / 6 1 3 65664 / 1 1 0 0 0 0");
    assert_eq!((session.state[7], session.state[8]), (6, 0), "the count runs on, and nothing was an occasion");
    session.run("8 1 4 / 9 1 4 1");
    assert_eq!((&session.room, session.state[0]), (&room, 1), "events happen, and are not recorded");
    session.run("6 1 3 65536 / 1 1 0 0 0 0");
    assert_eq!(session.newest()[0], 1 << 46 | 1 << 6 | 3, "unknown");
    assert_eq!(session.next(), &room[18..21], "behind it what was there before the freeze");
    session.run("1 3 0 0 0 0");
    assert_eq!(session.newest()[0], 3 << 32 | 1 << 6 | 3, "the count after that one is known again");
    session.run("10 1 1 78 0 0 / 6 1 3 65536 / 1 1 0 0 0 0");
    assert_eq!(session.newest()[0], 1 << 46 | 1 << 6 | 3, "unknown by the cleared PAUSED alone");
}

/// BRBTS_EL1 is read as register 0 is, but under nBRBDATA; a write of it is undefined at every level, before any trap.
#[test]
fn accesses_to_brbts_el1() {
    // P, the level and what a read answers.
    let cases = [
        (0x31, 0, Answer::Undefined),
        (0x31, 1, Answer::Read(77)),
        (0x31, 2, Answer::Read(77)),
        (0x31, 3, Answer::Read(77)),
        (0x131, 1, Answer::Trap2),
        (0x3D31, 1, Answer::Trap2),
        (0x331, 1, Answer::Read(77)),
        (0x130, 1, Answer::Read(77)),
        (0x131, 2, Answer::Read(77)),
        (0x121, 1, Answer::Trap2),
        (0x21, 1, Answer::Trap3),
        (0x21, 2, Answer::Trap3),
        (0x21, 0, Answer::Undefined),
        (0x121, 3, Answer::Read(77)),
    ];
    for (platform, level, read) in cases {
        let mut session = Session::fresh(24);
        session.run(&format!("0 0 8 0 / 4 0 {platform} / 3 0 {level} 0 0 0"));
        session.state[10] = 77;
        assert_eq!(session.run("5 1 4"), read, "P {platform:#x} at EL{level}");
        assert_eq!(session.run("6 1 4 5"), Answer::Undefined, "P {platform:#x} at EL{level}");
        assert_eq!(session.state[7..], [2, 1, 0, 77, 0], "both count, and change nothing");
    }
}

/// BRBTS_EL1 stays what it is by everything but a freeze and a reset.
#[test]
fn what_keeps_the_time_and_what_does_not() {
    let mut session = Session::fresh(24);
    session.run(&at_el1(with_ts(3), with_ts(3)));
    session.run("10 0 0 77 0 0 / 7 0 / 6 0 3 65536 / 6 0 1 0 / 6 0 4 5 / 8 0 4 / 7 0 / 9 0 4 1 / 2 0 34 3 0 0 / 4 0 0");
    assert_eq!(session.state[10], 77);
    session.run("0 0 8 0");
    assert_eq!(session.state[10], 0);
}

/// A group has to be 0 or 1; nothing else of a freeze is judged, at no level, and not while halted.
#[test]
fn what_is_refused_of_a_freeze() {
    let mut session = Session::fresh(24);
    session.refused("10 0 2", Refusal::NotReset);
    session.run(AT_EL1);
    for group in [2, 3, 10, 256, 1 << 32, u64::MAX] {
        session.refused(&format!("10 0 {group} 1 2 3"), Refusal::OutsideList);
    }
    for accepted in ["10 0 0", "10 0 1", "3 0 0 / 10 0 0", "2 0 34 2 / 10 0 1", "2 0 34 3 / 10 0 1", "8 0 4 / 10 0 0"] {
        session.run(AT_EL1);
        assert_eq!(session.run(accepted), Answer::Done, "{accepted}");
    }
    session.refused("10 0 2", Refusal::OutsideList);
    session.room.truncate(23);
    session.refused("10 0 2", Refusal::OutsideList);
    session.refused("10 0 0", Refusal::RoomTooShort);
}
