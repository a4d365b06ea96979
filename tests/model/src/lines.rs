//! The manual, "Programs": the lines that `list` prints.

use crate::{own_fields, BranchType, Document01, Part, Recordings, Register};

/// How a line shows an operation.
#[derive(Clone, Copy, Debug, PartialEq, Eq)]
pub enum Form {
    /// With words, for a reader.
    Readable,
    /// `--numbers`: what `pack` takes back.
    Numbers,
}

impl Form {
    pub const BOTH: [Form; 2] = [Form::Readable, Form::Numbers];
}

/// What is printed for a recording.
#[derive(Clone, Debug, PartialEq, Eq)]
pub struct Listing {
    pub text: String,
    /// Where the bad number starts at which reading stopped.
    pub bad: Option<usize>,
}

/// The operations' words, by their codes.
const WORDS: [&str; 11] =
    ["reset", "branch", "exception", "return", "platform", "read", "write", "iall", "halt", "resume", "freeze"];

/// A field's name and what is shown of it.
pub type Field = (&'static str, String);

/// The rules of lines, one method a rule. A test that wants to know whether an error would be found overrides one.
pub trait Lines: Recordings {
    /// A line for each operation, up to the end or to a bad number: `list` judges what a reader of recordings judges.
    fn list(&self, bytes: &[u8], form: Form) -> Listing {
        let (mut text, mut at) = (String::new(), 0);
        while at < bytes.len() {
            let (numbers, next) = match self.read_operation(bytes, at) {
                Ok(read) => read,
                Err(stop) => return Listing { text, bad: Some(stop.at) },
            };
            text += &match form {
                Form::Readable => self.readable(numbers),
                Form::Numbers => self.numbers(numbers),
            };
            text.push('\n');
            at = next;
        }
        Listing { text, bad: None }
    }

    /// An operation's own numbers, in decimal, one space between each two.
    fn numbers(&self, numbers: [u64; 6]) -> String {
        let own = 2 + own_fields(numbers[0]).expect("it was read");
        let words: Vec<String> = numbers[..own].iter().map(u64::to_string).collect();
        words.join(" ")
    }

    /// An operation's word, its cycles and its fields by name.
    fn readable(&self, [code, cycles, fields @ ..]: [u64; 6]) -> String {
        let mut line = format!("{} cycles={}", self.word(code), self.decimal(cycles));
        for (name, shown) in self.fields(code, fields) {
            line.extend([" ", name, "=", &shown]);
        }
        line
    }

    /// The word that a line begins with.
    fn word(&self, code: u64) -> &'static str {
        WORDS[code as usize]
    }

    /// The table of lines.
    fn fields(&self, code: u64, [a, b, c, d]: [u64; 4]) -> Vec<Field> {
        let addresses = [("source", self.hexadecimal(c)), ("target", self.hexadecimal(d))];
        let own = match code {
            0 => return vec![("size", self.decimal(a)), ("v1p1", self.decimal(b))],
            1 => [("type", self.branch_type(a)), ("mispredicted", self.decimal(b))],
            2 => [("type", self.exception_type(a)), ("target_level", self.decimal(b))],
            3 => [("target_level", self.decimal(a)), ("mispredicted", self.decimal(b))],
            4 => return vec![("P", self.platform(a))],
            5 => return vec![("register", self.register(a))],
            6 => return vec![("register", self.register(a)), ("value", self.value(b))],
            8 => return vec![("source", self.hexadecimal(a))],
            9 => return vec![("target", self.hexadecimal(a)), ("target_level", self.decimal(b))],
            10 => return self.freeze_fields([a, b, c, d]),
            _ => return vec![],
        };
        own.into_iter().chain(addresses).collect()
    }

    /// A freeze's count and its offsets are shown as addresses are, its group as a level is.
    fn freeze_fields(&self, [group, physical, virtual_offset, guest_offset]: [u64; 4]) -> Vec<Field> {
        vec![
            ("group", self.decimal(group)),
            ("physical", self.hexadecimal(physical)),
            ("virtual_offset", self.hexadecimal(virtual_offset)),
            ("guest_offset", self.hexadecimal(guest_offset)),
        ]
    }

    /// Of what has no other rule.
    fn decimal(&self, number: u64) -> String {
        number.to_string()
    }

    /// Of addresses: lower case, no leading zeros. The rules below begin from it.
    fn hexadecimal(&self, number: u64) -> String {
        format!("{number:#x}")
    }

    fn exception_type(&self, number: u64) -> String {
        self.hexadecimal(number)
    }

    fn platform(&self, number: u64) -> String {
        self.hexadecimal(number)
    }

    fn value(&self, number: u64) -> String {
        self.hexadecimal(number)
    }

    /// Its name, or hexadecimal where it has none.
    fn branch_type(&self, number: u64) -> String {
        match BranchType::from_number(number) {
            Some(kind) => self.branch_name(kind).into(),
            None => self.hexadecimal(number),
        }
    }

    /// The names in the table of branch types.
    fn branch_name(&self, kind: BranchType) -> &'static str {
        match kind {
            BranchType::Direct => "DIRECT",
            BranchType::Indirect => "INDIRECT",
            BranchType::DirectCall => "DIRCALL",
            BranchType::IndirectCall => "INDCALL",
            BranchType::SubroutineReturn => "RTN",
            BranchType::ConditionalDirect => "CONDDIR",
        }
    }

    /// Its name, or its number where the model does not have it.
    fn register(&self, number: u64) -> String {
        match Register::from_number(number) {
            Some(Register::Idr0) => "BRBIDR0_EL1".into(),
            Some(Register::Cr1) => "BRBCR_EL1".into(),
            Some(Register::Cr2) => "BRBCR_EL2".into(),
            Some(Register::Fcr) => "BRBFCR_EL1".into(),
            Some(Register::Ts) => "BRBTS_EL1".into(),
            Some(Register::Record { part, m }) => self.record_register(part, m),
            None => self.decimal(number),
        }
    }

    /// A record's register with its m, from 0 to 31.
    fn record_register(&self, part: Part, m: usize) -> String {
        let name = match part {
            Part::Inf => "BRBINF",
            Part::Source => "BRBSRC",
            Part::Target => "BRBTGT",
        };
        format!("{name}{m}")
    }
}

impl Lines for Document01 {}

#[cfg(test)]
mod tests {
    use super::*;

    #[track_caller]
    fn check(numbers: [u64; 6], line: &str) {
        assert_eq!(Document01.readable(numbers), line);
    }

    #[test]
    fn the_table_of_lines() {
        check([0, 0, 8, 0, 0, 0], "reset cycles=0 size=8 v1p1=0");
        check([1, 300, 0, 0, 4100, 4112], "branch cycles=300 type=DIRECT mispredicted=0 source=0x1004 target=0x1010");
        check([2, 7, 0x22, 1, 0x1004, 0x200], "exception cycles=7 type=0x22 target_level=1 source=0x1004 target=0x200");
        check([3, 0, 1, 0, 128, 4096], "return cycles=0 target_level=1 mispredicted=0 source=0x80 target=0x1000");
        check([4, 0, 49, 0, 0, 0], "platform cycles=0 P=0x31");
        check([5, 0, 32, 0, 0, 0], "read cycles=0 register=BRBINF0");
        check([6, 0, 1, 10, 0, 0], "write cycles=0 register=BRBCR_EL1 value=0xa");
        check([7, 0, 0, 0, 0, 0], "iall cycles=0");
        check([8, 100, 0x1004, 0, 0, 0], "halt cycles=100 source=0x1004");
        check([9, 5000, 0x1008, 1, 0, 0], "resume cycles=5000 target=0x1008 target_level=1");
        let freeze = "freeze cycles=40 group=0 physical=0x3e8 virtual_offset=0x5dc guest_offset=0x0";
        check([10, 40, 0, 1000, 1500, 0], freeze);
        check([6, 0, 4, 1, 0, 0], "write cycles=0 register=BRBTS_EL1 value=0x1");
    }

    #[test]
    fn what_has_no_name() {
        assert_eq!(Document01.branch_type(4), "0x4");
        assert_eq!(Document01.register(5), "5");
        assert_eq!(Document01.register(95), "BRBSRC31");
        assert_eq!(Document01.register(96), "BRBTGT0");
        assert_eq!(Document01.register(128), "128");
        assert_eq!(Document01.hexadecimal(u64::MAX), "0xffffffffffffffff");
        assert_eq!(Document01.hexadecimal(0), "0x0");
    }

    #[test]
    fn own_numbers_alone() {
        assert_eq!(Document01.numbers([7, 300, 1, 1, 1, 1]), "7 300");
        assert_eq!(Document01.numbers([6, 0, 3, u64::MAX, 1, 1]), "6 0 3 18446744073709551615");
        assert_eq!(Document01.numbers([10, 40, 0, 1000, 1500, 7]), "10 40 0 1000 1500 7");
    }

    #[test]
    fn lines_up_to_a_bad_number() {
        let listing = |text: &str, bad| Listing { text: text.into(), bad };
        assert_eq!(Document01.list(&[], Form::Readable), listing("", None));
        assert_eq!(Document01.list(&[7, 0, 5, 0, 1], Form::Numbers), listing("7 0\n5 0 1\n", None));
        assert_eq!(Document01.list(&[7, 0, 5, 0, 0x80, 0x00], Form::Readable), listing("iall cycles=0\n", Some(4)));
        assert_eq!(Document01.list(&[7, 0, 11, 0], Form::Numbers), listing("7 0\n", Some(2)), "an unknown code");
        assert_eq!(Document01.list(&[8, 0, 1, 9, 0], Form::Numbers), listing("8 0 1\n", Some(5)), "a resume cut off");
        assert_eq!(Document01.list(&[7, 0, 5], Form::Numbers), listing("7 0\n", Some(3)), "missing");
    }
}
