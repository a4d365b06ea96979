//! The replay program beside the model: what it prints, byte for byte, for a file and for standard input,
//! and the byte that it names where a recording is damaged. It is built with
//! the proofs; where it is not there, the tests say so and pass. `BRB_SEED` repeats a run.

use compare::generate;
use compare::programs::{first_difference, message, pieces, Program, Way, PIECE};
use compare::recording::{damage, hex, Recording};
use compare::seed::{self, say};
use compare::{Call, Random};
use model::lines::Form;
use model::{replay, Document01, Lines};

const SMALL_RECORDINGS: usize = 60;
const LARGE_RECORDINGS: usize = 4;
/// An accepted branch with the largest numbers has so many bytes.
const LONGEST_BRANCH: usize = 33;
/// Recording and counting on, at EL1: session S1 up to its first branch.
const SET_UP: &str = "0 0 8 0 / 4 0 49 / 6 0 1 10 / 6 0 2 8 / 6 0 3 65536 / 3 0 1 0 128 4096";
/// S1's reads: BRBINF, BRBSRC and BRBTGT of the newest record.
const READS: &str = "5 0 32 / 5 0 64 / 5 0 96";

/// The replay program.
struct Replay(Program);

impl Replay {
    fn of_test(test: &str) -> Option<Replay> {
        Program::of_test("replay", test, env!("CARGO_TARGET_TMPDIR")).map(Replay)
    }

    /// As a file and in pieces, it must print what the model prints, and name the byte where the recording is damaged.
    fn check(&self, bytes: &[u8], pieces: Way) {
        let expected = replay::text(bytes);
        let bad = Document01.list(bytes, Form::Numbers).bad;
        for way in [Way::File, pieces] {
            let output = self.0.run(&[], bytes, &way);
            let lines = first_difference(&output.stdout, expected.as_bytes());
            if let Some(difference) = lines.or_else(|| message::difference(&output.stderr, "byte", bad)) {
                let (start, kept) = (hex(&bytes[..bytes.len().min(80)]), self.0.file().display());
                let errors = String::from_utf8_lossy(&output.stderr);
                panic!("{way:?}, {} bytes ({start} ...), kept in {kept}: {difference}\n{errors}", bytes.len());
            }
        }
    }
}

fn push_all(recording: &mut Recording, written: &str) {
    Call::sequence(written).into_iter().for_each(|call| recording.push(call));
}

#[test]
fn nothing_and_session_s1() {
    let Some(program) = Replay::of_test("replay of session S1") else { return };
    program.check(&[], Way::Pieces(vec![1]));
    let mut s1 = Recording::default();
    push_all(&mut s1, SET_UP);
    push_all(&mut s1, "1 300 0 0 4100 4112 / 1 300 8 1 4112 4096 / 5 0 32 / 5 0 33 / 5 0 64 / 5 0 2");
    program.check(&s1.bytes, Way::Pieces(vec![1]));
    assert_eq!(replay::text(&s1.bytes), "0000012c00000843\n0000400000000043\n0000000000001010\nundefined\n");
    say("replay of session S1: the program prints what the model prints");
}

#[test]
fn small_recordings_and_damaged_ones() {
    let Some(program) = Replay::of_test("replay of small recordings") else { return };
    let mut random = Random::new(seed::of_test("replay of small recordings", seed::from_clock));
    let mut replayed = 0;
    for _ in 0..SMALL_RECORDINGS {
        let length = generate::length(&mut random).min(512);
        let recording = Recording::random(&mut random, 192, length);
        let cut = random.below(recording.bytes.len() as u64) as usize;
        let malformed: Vec<damage::Damaged> = damage::malformed(&recording, &mut random.clone()).collect();
        let malformed = malformed[random.below(malformed.len() as u64) as usize].bytes.clone();
        let anywhere = damage::anywhere(&recording, &mut random);
        let noise = damage::noise(&mut random);
        for bytes in [&recording.bytes[..], &recording.bytes[..cut], &malformed, &anywhere, &noise] {
            let pieces = pieces(&mut random, bytes.len());
            program.check(bytes, pieces);
            replayed += 1;
        }
    }
    say(&format!("replay of small recordings: {replayed} printed as the model prints"));
}

#[test]
fn large_recordings() {
    let Some(program) = Replay::of_test("replay of large recordings") else { return };
    let mut random = Random::new(seed::of_test("replay of large recordings", seed::from_clock));
    let mut most = 0;
    for _ in 0..LARGE_RECORDINGS {
        let mut bytes = Vec::new();
        while bytes.len() < 4 * PIECE {
            bytes.extend(Recording::random(&mut random, 192, 2048).bytes);
        }
        let mut damaged = bytes.clone();
        let place = damaged.len() - 1 - random.below(PIECE as u64) as usize;
        damaged[place] ^= 0x80;
        for bytes in [bytes, damaged] {
            let pieces = pieces(&mut random, bytes.len());
            program.check(&bytes, pieces);
            most = most.max(bytes.len());
        }
    }
    say(&format!(
        "replay of large recordings: {} of up to {most} bytes printed as the model prints",
        2 * LARGE_RECORDINGS
    ));
}

/// A recording that is set up and then fills up to a place, printing nothing.
fn filled_up_to(place: usize) -> Recording {
    let mut recording = Recording::default();
    push_all(&mut recording, SET_UP);
    if (place - recording.bytes.len()) % 2 == 1 {
        push_all(&mut recording, "7 128");
    }
    while recording.bytes.len() < place {
        push_all(&mut recording, "7 0");
    }
    assert_eq!(recording.bytes.len(), place);
    recording
}

/// Each of an operation's bytes once falls on a piece's end, whole, cut there, and with a bad number there.
#[test]
fn operations_across_the_end_of_a_piece() {
    let Some(program) = Replay::of_test("replay across pieces") else { return };
    let branch = Call([1, u64::MAX, 8, 1, u64::MAX, u64::MAX - 1]);
    let mut replayed = 0;
    for before in 0..=LONGEST_BRANCH {
        let end = if before % 8 == 0 { 2 * PIECE } else { PIECE };
        let mut recording = filled_up_to(end - before);
        recording.push(branch);
        let cut = recording.bytes[..end].to_vec();
        push_all(&mut recording, READS);
        let mut bad = recording.bytes.clone();
        bad[end - before + 1..][..10].fill(0xFF);
        for bytes in [recording.bytes, cut, bad] {
            program.check(&bytes, Way::Pieces(vec![PIECE]));
            replayed += 1;
        }
    }
    say(&format!("replay across pieces: {replayed} recordings printed as the model prints"));
}
