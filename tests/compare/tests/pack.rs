//! The program `pack` beside the model: its bytes, the line that it names where a text is wrong, and that it takes back what
//! `list --numbers` prints. Both are built with the proofs; where one is not there, the tests say so and pass. `BRB_SEED`
//! repeats a run.

use compare::generate;
use compare::programs::spelling::{self, Style};
use compare::programs::{disagreement, edges, every_way, pieces, wrong, Listed, Packed, Program, Way, PIECE};
use compare::recording::Recording;
use compare::seed::{self, say};
use compare::{Call, Random};
use model::lines::Form;
use model::{Document01, Notation};

const RANDOM_TEXTS: usize = 40;
const ROUNDS_OF_WRONG_TEXTS: usize = 3;
const MANY: usize = 200_000;

struct Pack(Program);

impl Pack {
    fn of_test(test: &str) -> Option<Pack> {
        Program::of_test("pack", test, env!("CARGO_TARGET_TMPDIR")).map(Pack)
    }

    /// It must write what the model writes.
    fn check(&self, text: &[u8], ways: &[Way]) {
        for way in ways {
            let how = |packed: &Packed| packed.difference(&packed.output(&self.0, way), &Document01);
            if let Some(shrunk) = disagreement(Packed::new(text), how) {
                panic!("{way:?}, a text of {} bytes, shrunk to {shrunk}", text.len());
            }
        }
    }

    /// The same for a text of operations, and the model must write their recording.
    fn check_operations(&self, random: &mut Random, calls: &[Call], style: Style) {
        let text = spelling::text(random, calls, style);
        self.check(&text, &every_way(random, text.len()));
        let packed = Document01.pack(&text);
        assert!(packed.wrong.is_none() && packed.bytes == Recording::of(calls).bytes, "the model takes every notation");
    }
}

#[test]
fn nothing_and_every_operation_at_every_edge() {
    let Some(pack) = Pack::of_test("pack of every operation") else { return };
    let mut random = Random::new(seed::of_test("pack of every operation", seed::from_clock));
    for text in ["", "\n", "/", "#", "\r", " \t/\r\n#/ 7 0", "7 0", "7 0\n", "7 0\r\n", "7 0/", "7 0#"] {
        pack.check(text.as_bytes(), &every_way(&mut random, text.len()));
    }
    let calls = edges::operations(&mut random);
    for style in [Style::Plain, Style::Mixed] {
        pack.check_operations(&mut random, &calls, style);
    }
    say(&format!("pack of every operation: {} written as the model writes, in two styles", calls.len()));
}

#[test]
fn random_texts() {
    let Some(pack) = Pack::of_test("pack of random texts") else { return };
    let mut random = Random::new(seed::of_test("pack of random texts", seed::from_clock));
    let mut operations = 0;
    for _ in 0..RANDOM_TEXTS {
        let length = generate::length(&mut random);
        let recording = Recording::of_any(&mut random, length);
        pack.check_operations(&mut random, &recording.calls, Style::Mixed);
        operations += length;
    }
    say(&format!("pack of random texts: {operations} operations written as the model writes"));
}

#[test]
fn a_text_of_many_operations() {
    let Some(pack) = Pack::of_test("pack of many operations") else { return };
    let mut random = Random::new(seed::of_test("pack of many operations", seed::from_clock));
    let recording = Recording::of_any(&mut random, MANY);
    let mut text = spelling::text(&mut random, &recording.calls, Style::Mixed);
    text.extend(b"\n7 x\n7 0\n");
    pack.check(&text, &[pieces(&mut random, text.len())]);
    say(&format!("pack of many operations: {MANY} written as the model writes"));
}

#[test]
fn wrong_texts() {
    let Some(pack) = Pack::of_test("pack of wrong texts") else { return };
    let mut random = Random::new(seed::of_test("pack of wrong texts", seed::from_clock));
    for round in 0..ROUNDS_OF_WRONG_TEXTS {
        for (kind, case) in wrong::Kind::ALL.iter().flat_map(|&kind| (0..wrong::CASES).map(move |case| (kind, case))) {
            let text = wrong::text(&mut random, kind, case);
            assert!(Document01.pack(&text).wrong.is_some(), "{kind:?} {case}: {}", Packed::new(text));
            let way = &every_way(&mut random, text.len())[round % 3];
            pack.check(&text, std::slice::from_ref(way));
        }
    }
    let texts = ROUNDS_OF_WRONG_TEXTS * wrong::CASES;
    say(&format!(
        "pack of wrong texts: {texts} of each of {} kinds written as the model writes",
        wrong::Kind::ALL.len()
    ));
}

/// Each byte of a line once falls on a piece's end; words, blanks and comments are longer than a piece.
#[test]
fn texts_across_the_end_of_a_piece() {
    let Some(pack) = Pack::of_test("pack across pieces") else { return };
    let line = b"1 0x12C 8 1 18446744073709551615 0X0fFfF/5 0 3 # 7 0 / 7\r\n7\t0 \r\n5 0 3 8";
    for before in 0..=line.len() {
        let fillers = [b"7 0\n".repeat(PIECE / 4), [b"#".repeat(PIECE - 1), b"\n".to_vec()].concat()];
        let text = [&fillers[before % 2][before..], line].concat();
        pack.check(&text, &[Way::Pieces(vec![PIECE])]);
    }
    for (long, rest) in
        [(" ", "7 0"), ("0", "7 0"), ("/", "7 0"), ("\n", "7 x"), ("# ", "7 x\n7 0"), ("9", " 0"), ("x", "")]
    {
        let text = ["7 0\n", &long.repeat(2 * PIECE), rest].concat();
        pack.check(text.as_bytes(), &[Way::File, Way::Pieces(vec![1000])]);
    }
    say("pack across pieces: written as the model writes");
}

/// What `list --numbers` prints of a recording that it gets in one way, packed again in another.
fn there_and_back([list, pack]: [&Program; 2], recording: &Recording, [to, back]: [&Way; 2]) {
    let listed = Listed { bytes: recording.bytes.clone(), form: Form::Numbers };
    let packed = Packed::new(listed.output(list, to).stdout).output(pack, back);
    assert!(packed.stdout == recording.bytes, "{to:?}, {back:?}: {} bytes", recording.bytes.len());
    assert!(packed.stderr.is_empty(), "{to:?}, {back:?}: {}", String::from_utf8_lossy(&packed.stderr));
}

#[test]
fn what_list_prints_is_packed_again() {
    let of_test = |name| Program::of_test(name, "there and back", env!("CARGO_TARGET_TMPDIR"));
    let (Some(list), Some(pack)) = (of_test("list"), of_test("pack")) else { return };
    let mut random = Random::new(seed::of_test("there and back", seed::from_clock));
    let mut recordings = vec![Recording::default(), Recording::of(&edges::operations(&mut random))];
    for _ in 0..20 {
        let length = generate::length(&mut random);
        recordings.push(Recording::random(&mut random, 192, length));
    }
    for recording in &recordings {
        let [ways, others] = [1, 2].map(|times| every_way(&mut random, times * recording.bytes.len()));
        ways.iter().zip(&others).for_each(|(to, back)| there_and_back([&list, &pack], recording, [to, back]));
    }
    let many = Recording::of_any(&mut random, MANY);
    there_and_back([&list, &pack], &many, [&Way::Input, &pieces(&mut random, many.bytes.len())]);
    let operations: usize = recordings.iter().chain([&many]).map(|recording| recording.calls.len()).sum();
    say(&format!("there and back: {operations} operations listed and packed again"));
}
