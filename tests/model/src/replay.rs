//! Document 01, "Recordings": what the replay program prints.

use crate::recording::Recordings;
use crate::{room, Answer, Document01, State};
use std::fmt::{self, Write};

/// All that it prints for a whole recording, from a fresh state with room for 64 records.
pub fn text(bytes: &[u8]) -> String {
    let mut state = [0; State::NUMBERS];
    let mut records = vec![0; room::needed(64)];
    let (mut text, mut at) = (String::new(), 0);
    while at < bytes.len() {
        let step = Document01.step_recorded(&mut state, &mut records, bytes, at);
        print_line(&mut text, step.answer).expect("a string takes every line");
        if Document01.stops(step.answer) {
            break;
        }
        at = step.next;
    }
    text
}

/// "A line for each read (16 lower-case hex digits), each access not performed and each refusal; nothing else."
fn print_line(text: &mut String, answer: Answer) -> fmt::Result {
    match answer {
        Answer::Done => Ok(()),
        Answer::Read(value) => writeln!(text, "{value:016x}"),
        Answer::Undefined => writeln!(text, "undefined"),
        Answer::Trap2 => writeln!(text, "trap2"),
        Answer::Trap3 => writeln!(text, "trap3"),
        Answer::Refused(refusal) => writeln!(text, "refused {}", refusal as u64),
    }
}

#[cfg(test)]
mod tests {
    use super::*;
    use crate::s1::{bytes, S1};

    const S1_LINES: [&str; 4] = ["0000012c00000843", "0000400000000043", "0000000000001010", "undefined"];

    /// The lines of what is printed, each of which is ended.
    fn lines(bytes: &[u8]) -> Vec<String> {
        let text = text(bytes);
        assert!(text.is_empty() || text.ends_with('\n'));
        text.lines().map(String::from).collect()
    }

    /// The marked case P12.
    #[test]
    fn session_s1() {
        assert_eq!(lines(&bytes(S1)), S1_LINES);
    }

    #[test]
    fn goes_on_after_3_to_6_and_stops_after_1_and_2() {
        assert_eq!(lines(&bytes("7 0 / 0 0 9 0 / 0 0 8 0 / 5 0 0")), ["refused 3", "refused 4", "0000000000005008"]);
        assert_eq!(lines(&bytes("0 0 8 0 / 2 0 34 0 0 0 / 5 0 1")), ["refused 5", "0000000000000000"]);
        assert_eq!(lines(&bytes("0 0 8 0 / 9 0 4 3 / 5 0 1")), ["refused 8", "0000000000000000"]);
        assert_eq!(lines(&bytes("0 0 8 0 / 10 0 2 0 0 0 / 5 0 4")), ["refused 4", "0000000000000000"]);
        assert_eq!(lines(&bytes("11 / 0 0 8 0 / 5 0 0")), ["refused 2"]);
        assert_eq!(lines(&[5, 0, 0x80, 0x00, 5, 0, 0]), ["refused 1"]);
        assert_eq!(lines(&[5]), ["refused 1"]);
        assert_eq!(lines(&[]), [""; 0]);
    }

    /// The manual's example of a freeze: FZP and TS 1 in BRBCR_EL1, and an offset above the count.
    #[test]
    fn prints_the_time_of_a_freeze() {
        let at_el1 = "0 0 8 0 / 4 0 49 / 6 0 1 290 / 3 0 1 0 0 0 / 10 40 0 1000 1500 0";
        let lines = lines(&bytes(&format!("{at_el1} / 5 0 4 / 6 0 4 1 / 5 0 3")));
        assert_eq!(lines, ["fffffffffffffe0c", "undefined", "0000000000000080"]);
    }

    #[test]
    fn prints_traps() {
        let at_el1 = "0 0 8 0 / 4 0 257 / 3 0 1 0 0 0 / 5 0 1 / 7 0";
        assert_eq!(lines(&bytes(at_el1)), ["trap2", "trap2"]);
        let at_el2 = "0 0 8 0 / 4 0 1 / 3 0 2 0 0 0 / 5 0 1 / 6 0 3 0 / 6 0 0 0";
        assert_eq!(lines(&bytes(at_el2)), ["trap3", "trap3", "undefined"]);
    }
}
