//! The comparison of `list` is tried on wrong models, each with one planted error: it must find the error and shrink the
//! recording to a few bytes. `-- --nocapture` shows each shrunk case.

use compare::programs::planted::{self, Seen};
use compare::programs::{bad, edges, Listed, Program, Way};
use compare::recording::Recording;
use compare::seed;
use compare::Random;
use model::lines::{Field, Form, Lines, Listing};
use model::recording::Stop;
use model::{BranchType, Document01, Part, Recordings, Rules};

/// These tests are about the comparison itself: they repeat unless told otherwise.
const SEED: u64 = 1;
/// A recording of so many operations is soon shrunk.
const OPERATIONS: usize = 200;

/// What a wrong model changes: the rules of lines, or those of reading.
macro_rules! changed {
    ($name:ident, Lines { $($rule:tt)* }) => {
        impl Recordings for $name {}
        impl Lines for $name { $($rule)* }
    };
    ($name:ident, Recordings { $($rule:tt)* }) => {
        impl Recordings for $name { $($rule)* }
        impl Lines for $name {}
    };
}

/// Wrong models, each by the words that say what is wrong and the rules that it changes.
macro_rules! planted {
    ($(($words:literal, $name:ident: $rules:ident { $($rule:tt)* }))*) => {
        $(
            struct $name;
            impl Rules for $name {}
            changed!($name, $rules { $($rule)* });
        )*
        const PLANTED: &[(&str, &dyn Lines)] = &[$(($words, &$name)),*];
    };
}

/// Document 01's fields, of one code with two numbers in each other's place.
fn swapped(of: u64, [one, other]: [usize; 2], code: u64, mut fields: [u64; 4]) -> Vec<Field> {
    if code == of {
        fields.swap(one, other);
    }
    Document01.fields(code, fields)
}

/// Document 01's fields, of one code with something else shown of one.
fn shown(of: u64, place: usize, text: String, code: u64, fields: [u64; 4]) -> Vec<Field> {
    let mut own = Document01.fields(code, fields);
    if code == of {
        own[place].1 = text;
    }
    own
}

planted! {
    ("an exception's type and level are swapped", TypeAndLevel: Lines {
        fn fields(&self, code: u64, fields: [u64; 4]) -> Vec<Field> {
            swapped(2, [0, 1], code, fields)
        }
    })
    ("an exception's level comes before its type", LevelFirst: Lines {
        fn fields(&self, code: u64, fields: [u64; 4]) -> Vec<Field> {
            let mut own = Document01.fields(code, fields);
            if code == 2 {
                own.swap(0, 1);
            }
            own
        }
    })
    ("a return's level and flag are swapped", LevelAndFlag: Lines {
        fn fields(&self, code: u64, fields: [u64; 4]) -> Vec<Field> {
            swapped(3, [0, 1], code, fields)
        }
    })
    ("a return's source and target are swapped", SourceAndTarget: Lines {
        fn fields(&self, code: u64, fields: [u64; 4]) -> Vec<Field> {
            swapped(3, [2, 3], code, fields)
        }
    })
    ("a write's register and value are swapped", RegisterAndValue: Lines {
        fn fields(&self, code: u64, fields: [u64; 4]) -> Vec<Field> {
            swapped(6, [0, 1], code, fields)
        }
    })
    ("a resume's target and level are swapped", ResumeSwapped: Lines {
        fn fields(&self, code: u64, fields: [u64; 4]) -> Vec<Field> {
            swapped(9, [0, 1], code, fields)
        }
    })
    ("a resume's level comes before its target", ResumeLevelFirst: Lines {
        fn fields(&self, code: u64, fields: [u64; 4]) -> Vec<Field> {
            let mut own = Document01.fields(code, fields);
            if code == 9 {
                own.swap(0, 1);
            }
            own
        }
    })
    ("a halt's source is shown as its target", HaltTarget: Lines {
        fn fields(&self, code: u64, fields: [u64; 4]) -> Vec<Field> {
            let mut own = Document01.fields(code, fields);
            if code == 8 {
                own[0].0 = "target";
            }
            own
        }
    })
    ("a halt's source is in decimal", HaltDecimal: Lines {
        fn fields(&self, code: u64, fields: [u64; 4]) -> Vec<Field> {
            shown(8, 0, self.decimal(fields[0]), code, fields)
        }
    })
    ("a resume's level is in hexadecimal", ResumeLevelHexadecimal: Lines {
        fn fields(&self, code: u64, fields: [u64; 4]) -> Vec<Field> {
            shown(9, 1, self.hexadecimal(fields[1]), code, fields)
        }
    })
    ("a freeze's offsets are swapped", FreezeOffsets: Lines {
        fn fields(&self, code: u64, fields: [u64; 4]) -> Vec<Field> {
            swapped(10, [2, 3], code, fields)
        }
    })
    ("a freeze's count is in decimal", FreezeDecimal: Lines {
        fn fields(&self, code: u64, fields: [u64; 4]) -> Vec<Field> {
            shown(10, 1, self.decimal(fields[1]), code, fields)
        }
    })
    ("a read shows a value", ReadValue: Lines {
        fn fields(&self, code: u64, fields: [u64; 4]) -> Vec<Field> {
            Document01.fields(if code == 5 { 6 } else { code }, fields)
        }
    })
    ("a size is in hexadecimal", SizeHexadecimal: Lines {
        fn fields(&self, code: u64, fields: [u64; 4]) -> Vec<Field> {
            shown(0, 0, self.hexadecimal(fields[0]), code, fields)
        }
    })
    ("a level has its name", LevelNamed: Lines {
        fn fields(&self, code: u64, fields: [u64; 4]) -> Vec<Field> {
            shown(3, 0, format!("EL{}", fields[0]), code, fields)
        }
    })
    ("a flag above 1 is shown as 1", FlagCapped: Lines {
        fn fields(&self, code: u64, fields: [u64; 4]) -> Vec<Field> {
            shown(1, 1, self.decimal(fields[1].min(1)), code, fields)
        }
    })
    ("a reset is shown without its v1p1", WithoutVersion: Lines {
        fn fields(&self, code: u64, fields: [u64; 4]) -> Vec<Field> {
            let mut own = Document01.fields(code, fields);
            own.retain(|(name, _)| *name != "v1p1");
            own
        }
    })
    ("a reset is shown without its cycles", ResetWithoutCycles: Lines {
        fn readable(&self, numbers: [u64; 6]) -> String {
            let [code, ..] = numbers;
            let line = Document01.readable(numbers);
            if code == 0 { line.replace(&format!(" cycles={}", numbers[1]), "") } else { line }
        }
    })
    ("exception and return have each other's word", WordsSwapped: Lines {
        fn word(&self, code: u64) -> &'static str {
            Document01.word(if matches!(code, 2 | 3) { 5 - code } else { code })
        }
    })
    ("halt and resume have each other's word", HaltWordsSwapped: Lines {
        fn word(&self, code: u64) -> &'static str {
            Document01.word(if matches!(code, 8 | 9) { 17 - code } else { code })
        }
    })
    ("decimal numbers from 2^63 on are negative", Negative: Lines {
        fn decimal(&self, number: u64) -> String {
            (number as i64).to_string()
        }
    })
    ("decimal numbers are taken modulo 2^32", Decimal32: Lines {
        fn decimal(&self, number: u64) -> String {
            (number as u32).to_string()
        }
    })
    ("hexadecimal digits are upper case", UpperCase: Lines {
        fn hexadecimal(&self, number: u64) -> String {
            format!("{number:#X}")
        }
    })
    ("addresses have 16 digits", SixteenDigits: Lines {
        fn hexadecimal(&self, number: u64) -> String {
            format!("{number:#018x}")
        }
    })
    ("the address 0 has no digit", ZeroWithoutDigit: Lines {
        fn hexadecimal(&self, number: u64) -> String {
            if number == 0 { "0x".into() } else { Document01.hexadecimal(number) }
        }
    })
    ("addresses have no 0x", WithoutPrefix: Lines {
        fn hexadecimal(&self, number: u64) -> String {
            format!("{number:x}")
        }
    })
    ("an exception's type is in decimal", ExceptionDecimal: Lines {
        fn exception_type(&self, number: u64) -> String {
            self.decimal(number)
        }
    })
    ("an exception's type has a name", ExceptionNamed: Lines {
        fn exception_type(&self, number: u64) -> String {
            if number == 0x2E { "IRQ".into() } else { Document01.exception_type(number) }
        }
    })
    ("an exception's type has six bits", ExceptionSixBits: Lines {
        fn exception_type(&self, number: u64) -> String {
            self.hexadecimal(number & 0x3F)
        }
    })
    ("P is in decimal", PlatformDecimal: Lines {
        fn platform(&self, number: u64) -> String {
            self.decimal(number)
        }
    })
    ("P is shown with the bits of its mask alone", PlatformMasked: Lines {
        fn platform(&self, number: u64) -> String {
            self.hexadecimal(number & model::Platform::MASK)
        }
    })
    ("a written value is in decimal", ValueDecimal: Lines {
        fn value(&self, number: u64) -> String {
            self.decimal(number)
        }
    })
    ("a written value has 32 bits", Value32: Lines {
        fn value(&self, number: u64) -> String {
            self.hexadecimal(number & 0xFFFF_FFFF)
        }
    })
    ("a branch type without a name is in decimal", TypeDecimal: Lines {
        fn branch_type(&self, number: u64) -> String {
            match BranchType::from_number(number) {
                Some(_) => Document01.branch_type(number),
                None => self.decimal(number),
            }
        }
    })
    ("a branch type has six bits", TypeSixBits: Lines {
        fn branch_type(&self, number: u64) -> String {
            Document01.branch_type(number & 0x3F)
        }
    })
    ("branch type 7 has a name", TypeSeven: Lines {
        fn branch_type(&self, number: u64) -> String {
            if number == 7 { "ERET".into() } else { Document01.branch_type(number) }
        }
    })
    ("INDCALL is shown as DIRCALL", IndirectCall: Lines {
        fn branch_name(&self, kind: BranchType) -> &'static str {
            Document01.branch_name(if kind == BranchType::IndirectCall { BranchType::DirectCall } else { kind })
        }
    })
    ("RTN is shown as RET", Ret: Lines {
        fn branch_name(&self, kind: BranchType) -> &'static str {
            if kind == BranchType::SubroutineReturn { "RET" } else { Document01.branch_name(kind) }
        }
    })
    ("BRBCR_EL1 and BRBCR_EL2 are swapped", ControlsSwapped: Lines {
        fn register(&self, number: u64) -> String {
            Document01.register(if matches!(number, 1 | 2) { 3 - number } else { number })
        }
    })
    ("register 4 is a number", RegisterFour: Lines {
        fn register(&self, number: u64) -> String {
            if number == 4 { self.decimal(number) } else { Document01.register(number) }
        }
    })
    ("register 5 is BRBCR_EL12", RegisterFive: Lines {
        fn register(&self, number: u64) -> String {
            if number == 5 { "BRBCR_EL12".into() } else { Document01.register(number) }
        }
    })
    ("registers from 128 on begin again", RegistersAgain: Lines {
        fn register(&self, number: u64) -> String {
            Document01.register(if number >= 128 { number % 128 } else { number })
        }
    })
    ("a register has 32 bits", Register32: Lines {
        fn register(&self, number: u64) -> String {
            Document01.register(number & 0xFFFF_FFFF)
        }
    })
    ("a register that the model does not have is in hexadecimal", RegisterHexadecimal: Lines {
        fn register(&self, number: u64) -> String {
            let known = model::Register::from_number(number).is_some();
            if known { Document01.register(number) } else { self.hexadecimal(number) }
        }
    })
    ("BRBTGT is numbered 32 too high", TargetTooHigh: Lines {
        fn record_register(&self, part: Part, m: usize) -> String {
            Document01.record_register(part, if part == Part::Target { m + 32 } else { m })
        }
    })
    ("BRBSRC and BRBTGT are swapped", PartsSwapped: Lines {
        fn record_register(&self, part: Part, m: usize) -> String {
            let other = [Part::Inf, Part::Target, Part::Source][part as usize];
            Document01.record_register(other, m)
        }
    })
    ("a record's register ends in _EL1", RecordSuffix: Lines {
        fn record_register(&self, part: Part, m: usize) -> String {
            Document01.record_register(part, m) + "_EL1"
        }
    })
    ("m has two digits", TwoDigits: Lines {
        fn record_register(&self, part: Part, m: usize) -> String {
            let one = Document01.record_register(part, m);
            if m < 10 { one.replace(&m.to_string(), &format!("0{m}")) } else { one }
        }
    })
    ("--numbers shows all six numbers", AllSix: Lines {
        fn numbers(&self, numbers: [u64; 6]) -> String {
            numbers.map(|number| number.to_string()).join(" ")
        }
    })
    ("--numbers shows addresses in hexadecimal", NumbersHexadecimal: Lines {
        fn numbers(&self, numbers: [u64; 6]) -> String {
            let [code, cycles, a, b, c, d] = numbers;
            if matches!(code, 1..=3) {
                return format!("{code} {cycles} {a} {b} {c:#x} {d:#x}");
            }
            Document01.numbers(numbers)
        }
    })
    ("--numbers puts two spaces after the code", TwoSpaces: Lines {
        fn numbers(&self, numbers: [u64; 6]) -> String {
            Document01.numbers(numbers).replacen(' ', "  ", 1)
        }
    })
    ("the last line has no end", LastLineOpen: Lines {
        fn list(&self, bytes: &[u8], form: Form) -> Listing {
            let mut listing = Document01.list(bytes, form);
            listing.text.pop();
            listing
        }
    })
    ("nothing is printed where a number is bad", NothingBefore: Lines {
        fn list(&self, bytes: &[u8], form: Form) -> Listing {
            let Listing { text, bad } = Document01.list(bytes, form);
            Listing { text: if bad.is_some() { String::new() } else { text }, bad }
        }
    })
    ("the byte is counted from 1", ByteFromOne: Lines {
        fn list(&self, bytes: &[u8], form: Form) -> Listing {
            let Listing { text, bad } = Document01.list(bytes, form);
            Listing { text, bad: bad.map(|byte| byte + 1) }
        }
    })
    ("an operation that the input cuts off is no error", CutOffIsEnd: Lines {
        fn list(&self, bytes: &[u8], form: Form) -> Listing {
            let Listing { text, bad } = Document01.list(bytes, form);
            Listing { text, bad: bad.filter(|&byte| byte < bytes.len()) }
        }
    })
    ("fields are judged", FieldsJudged: Lines {
        fn list(&self, bytes: &[u8], form: Form) -> Listing {
            let (mut at, mut end) = (0, bytes.len());
            while let Ok(([code, _, fields @ ..], next)) = Document01.read_operation(bytes, at) {
                if Document01.operation(code, fields).is_none() {
                    end = at;
                    break;
                }
                at = next;
            }
            let listing = Document01.list(&bytes[..end], form);
            Listing { bad: listing.bad.or((end < bytes.len()).then_some(end)), ..listing }
        }
    })
    ("the last code is still 9", LastCode9: Recordings {
        fn fields_read(&self, code: u64) -> Option<usize> {
            model::own_fields(code).filter(|_| code <= 9)
        }
    })
    ("the byte is that of the operation", ByteOfOperation: Recordings {
        fn read_operation(&self, bytes: &[u8], at: usize) -> Result<([u64; 6], usize), Stop> {
            Document01.read_operation(bytes, at).map_err(|stop| Stop { at, ..stop })
        }
    })
    ("the byte of a number that is cut off is the input's length", ByteOfEnd: Recordings {
        fn bad_number(&self, start: usize, length: usize) -> usize {
            if length.saturating_sub(start) < 2 { length } else { start }
        }
    })
    ("a number that is not in its shortest form is accepted", NotShortest: Recordings {
        fn shortest(&self, _: usize, _: u8) -> bool {
            true
        }
    })
    ("2^64 and more is taken modulo 2^64", Wrapped: Recordings {
        fn below_2_to_64(&self, number: u128) -> Option<u64> {
            Some(number as u64)
        }
    })
}

/// What the agreement is tested with: every operation at every edge, in short recordings, and a bad number at many places.
fn cases(random: &mut Random) -> Vec<Listed> {
    let edges = edges::operations(random);
    let recordings = edges.chunks(OPERATIONS).map(|calls| Recording::of(calls).bytes);
    let edges = recordings.flat_map(|bytes| Form::BOTH.map(|form| Listed { bytes: bytes.clone(), form }));
    let bad = bad::recordings(random).into_iter().step_by(5).zip(Form::BOTH.into_iter().cycle());
    edges.chain(bad.map(|(bytes, form)| Listed { bytes, form })).collect()
}

#[test]
fn each_planted_error_of_lines_is_found_and_shrunk() {
    let test = "planted errors of lines";
    let Some(program) = Program::of_test("list", test, env!("CARGO_TARGET_TMPDIR")) else { return };
    let mut random = Random::new(seed::of_test(test, || SEED));
    let run = |listed: &Listed| listed.output(&program, &Way::File);
    let seen = Seen::new(cases(&mut random), run);
    let agreed = seen.found(run, |listed, output| listed.difference(output, &Document01));
    assert_eq!(agreed, None, "no error is planted");
    let found = PLANTED
        .iter()
        .map(|&(words, wrong)| (words, seen.found(run, |listed, output| listed.difference(output, wrong))));
    planted::check(test, found);
}
