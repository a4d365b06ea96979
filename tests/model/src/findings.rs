//! The manual, "Programs": what `compare` prints of two recordings.

use crate::comparison::{Comparisons, Held, Parting, Unreadable, Which};
use crate::lines::{Form, Lines};
use crate::Document01;

/// What the program does with two recordings.
#[derive(Clone, Debug, PartialEq, Eq)]
pub struct Finding {
    /// What is printed.
    pub text: String,
    /// What the message on standard error names.
    pub bad: Option<Bad>,
    pub status: i32,
}

/// A recording that cannot be read on.
#[derive(Clone, Copy, Debug, PartialEq, Eq)]
pub struct Bad {
    pub which: Which,
    /// Where the bad number starts, counted from 0.
    pub byte: usize,
    /// Its operation, counted from 1.
    pub operation: usize,
}

/// The rules of what `compare` prints, one method a rule. A test that wants to know whether an error would be found overrides
/// one.
pub trait Findings: Comparisons + Lines {
    fn found(&self, first: &[u8], second: &[u8], form: Form) -> Finding {
        let held = [self.held(first), self.held(second)];
        let compared = self.compare(first, second);
        let text = match (form, &compared) {
            (Form::Numbers, _) => self.line_of_numbers(self.nine_numbers(&compared)),
            (Form::Readable, Ok(parting)) => self.lines_of(&held, parting),
            (Form::Readable, Err(_)) => self.of_unreadable(&held),
        };
        let status = self.status(&compared);
        Finding { text, bad: compared.err().map(|unreadable| self.bad(&held, unreadable)), status }
    }

    /// "0 where the recordings are equal, 1 where they differ and 2 where something was wrong."
    fn status(&self, compared: &Result<Parting, Unreadable>) -> i32 {
        match compared {
            Ok(Parting { ends_first: None, differing: 0, .. }) => 0,
            Ok(_) => 1,
            Err(_) => 2,
        }
    }

    // ---------------------------------------------------------------------------------------------------------------
    // Where a recording cannot be read on

    /// Which one, as the comparison tells it, and the operation that its reading stopped in.
    fn bad(&self, held: &[Held; 2], Unreadable { which, stop }: Unreadable) -> Bad {
        Bad { which, byte: stop.at, operation: which.of(held.each_ref()).operations.len() + 1 }
    }

    /// "Nothing is printed then but, with `--numbers`, the line."
    fn of_unreadable(&self, _held: &[Held; 2]) -> String {
        String::new()
    }

    // ---------------------------------------------------------------------------------------------------------------
    // The lines

    /// "The nine numbers in decimal and in their order, with one space between each two."
    fn line_of_numbers(&self, numbers: [u64; 9]) -> String {
        numbers.map(|number| number.to_string()).join(" ") + "\n"
    }

    /// The lines of the table, each where it stands.
    fn lines_of(&self, held: &[Held; 2], parting: &Parting) -> String {
        let mut lines = vec![self.equal_line(parting.equal)];
        if let Some([one, other]) = self.first_unequal(held) {
            lines.push(self.unequal_line(parting.equal, self.names(one, parting.differing)));
            lines.extend([one, other].map(|numbers| self.shown(numbers)));
        }
        lines.push(self.last_line(held, parting));
        lines.iter().flat_map(|line| [line, "\n"]).collect()
    }

    fn equal_line(&self, equal: usize) -> String {
        format!("equal at the front: {}", self.operations_in_words(equal))
    }

    /// "`1 operation` where it is one."
    fn operations_in_words(&self, operations: usize) -> String {
        match operations {
            1 => "1 operation".into(),
            _ => format!("{operations} operations"),
        }
    }

    /// "Which one, counted from 1, and what differs in it."
    fn unequal_line(&self, equal: usize, names: Vec<&'static str>) -> String {
        format!("operation {} differs in {}:", equal + 1, names.join(", "))
    }

    /// "By the names that `list` has, in the order of the fields: `code` alone, or `cycles` and the fields."
    fn names(&self, [code, _, fields @ ..]: [u64; 6], differing: u64) -> Vec<&'static str> {
        let fields = self.fields(code, fields).into_iter().map(|(name, _)| name);
        let names = ["code", "cycles"].into_iter().chain(fields).enumerate();
        names.filter(|&(place, _)| differing & self.bit_of(place) != 0).map(|(_, name)| name).collect()
    }

    /// "Each as `list` shows it, behind four spaces."
    fn shown(&self, numbers: [u64; 6]) -> String {
        format!("    {}", self.readable(numbers))
    }

    fn last_line(&self, held: &[Held; 2], parting: &Parting) -> String {
        match parting.ends_first {
            Some(which) => self.ends_line(held, parting, which),
            None if parting.differing != 0 => "neither ends first".into(),
            None => "no difference".into(),
        }
    }

    /// "What is left of the longer one is what it holds after as many operations as the other has; bytes are counted from 0."
    fn ends_line(&self, held: &[Held; 2], parting: &Parting, ends_first: Which) -> String {
        let [longer, other] = [parting.rest_of, parting.rest_of.other()].map(|which| which.of(held.each_ref()));
        let operations = self.operations_in_words(longer.operations.len() - other.operations.len());
        let (ended, left) = (self.word_of(ends_first), self.word_of(parting.rest_of));
        let (bytes, at) = (parting.rest.len(), parting.rest.start);
        format!("the {ended} ends first; left of the {left}: {operations}, {bytes} bytes, from byte {at} on")
    }

    fn word_of(&self, which: Which) -> &'static str {
        match which {
            Which::First => "first",
            Which::Second => "second",
        }
    }
}

impl Findings for Document01 {}

#[cfg(test)]
mod tests {
    use super::*;
    use crate::s1::bytes;

    /// What is printed of two recordings that can be read, in both forms, and the status.
    #[track_caller]
    fn check(first: &str, second: &str, lines: &[&str], numbers: &str, status: i32) {
        let (one, other) = (bytes(first), bytes(second));
        let lines: String = lines.iter().flat_map(|line| [line, "\n"]).collect();
        let finding = |text: String| Finding { text, bad: None, status };
        assert_eq!(Document01.found(&one, &other, Form::Readable), finding(lines), "{first} beside {second}");
        assert_eq!(Document01.found(&one, &other, Form::Numbers), finding(format!("{numbers}\n")));
    }

    #[test]
    fn equal_recordings() {
        check("", "", &["equal at the front: 0 operations", "no difference"], "0 0 0 0 0 0 1 0 0", 0);
        check("7 0", "7 0", &["equal at the front: 1 operation", "no difference"], "0 0 0 1 0 0 1 2 0", 0);
        let two = ["equal at the front: 2 operations", "no difference"];
        check("7 0 / 5 0 32", "7 0 / 5 0 32", &two, "0 0 0 2 0 0 1 5 0", 0);
    }

    #[test]
    fn one_that_ends_first() {
        let left = "the first ends first; left of the second: 2 operations, 5 bytes, from byte 4 on";
        let lines = ["equal at the front: 1 operation", left];
        check("0 0 8 0", "0 0 8 0 / 4 0 49 / 7 0", &lines, "0 0 0 1 1 0 2 4 5", 1);
        let left = "the second ends first; left of the first: 1 operation, 3 bytes, from byte 0 on";
        check("7 300", "", &["equal at the front: 0 operations", left], "0 0 0 0 2 0 1 0 3", 1);
    }

    #[test]
    fn an_unequal_pair() {
        let lines = [
            "equal at the front: 1 operation",
            "operation 2 differs in cycles, register:",
            "    read cycles=0 register=BRBINF0",
            "    read cycles=1 register=BRBSRC0",
            "neither ends first",
        ];
        check("7 0 / 5 0 32", "7 0 / 5 1 64", &lines, "0 0 0 1 0 6 1 5 0", 1);
        let lines = [
            "equal at the front: 0 operations",
            "operation 1 differs in code:",
            "    branch cycles=5 type=DIRECT mispredicted=0 source=0x40 target=0x80",
            "    iall cycles=6",
            "the first ends first; left of the second: 1 operation, 2 bytes, from byte 2 on",
        ];
        check("1 5 0 0 64 128", "7 6 / 7 0", &lines, "0 0 0 0 1 1 2 2 2", 1);
    }

    /// The names that `list` has, of each field of each operation.
    #[test]
    fn names_of_what_differs() {
        let all = |code: u64| Document01.names([code, 0, 0, 0, 0, 0], 0x3E).join(" ");
        assert_eq!(all(0), "cycles size v1p1");
        assert_eq!(all(1), "cycles type mispredicted source target");
        assert_eq!(all(2), "cycles type target_level source target");
        assert_eq!(all(3), "cycles target_level mispredicted source target");
        assert_eq!(all(4), "cycles P");
        assert_eq!(all(5), "cycles register");
        assert_eq!(all(6), "cycles register value");
        assert_eq!(all(7), "cycles");
        assert_eq!(all(8), "cycles source");
        assert_eq!(all(9), "cycles target target_level");
        assert_eq!(all(10), "cycles group physical virtual_offset guest_offset");
        assert_eq!(Document01.names([1, 0, 0, 0, 0, 0], 0x1), ["code"]);
        assert_eq!(Document01.names([1, 0, 0, 0, 0, 0], 0x28), ["mispredicted", "target"]);
    }

    #[test]
    fn a_recording_that_cannot_be_read_on() {
        let (good, cut) = (bytes("7 0"), bytes("7 0 / 7 1 / 5 0"));
        let found = |first: &[u8], second: &[u8], form| Document01.found(first, second, form);
        let bad = |which, byte, operation| Some(Bad { which, byte, operation });
        let finding = |text: &str, bad| Finding { text: text.into(), bad, status: 2 };
        assert_eq!(found(&cut, &good, Form::Readable), finding("", bad(Which::First, 6, 3)));
        assert_eq!(found(&good, &cut, Form::Readable), finding("", bad(Which::Second, 6, 3)));
        assert_eq!(found(&good, &cut, Form::Numbers), finding("1 2 6 0 0 0 0 0 0\n", bad(Which::Second, 6, 3)));
        let numbers = finding("2 1 0 0 0 0 0 0 0\n", bad(Which::First, 0, 1));
        assert_eq!(found(&[11], &cut, Form::Numbers), numbers, "the first's, where both cannot");
    }
}
