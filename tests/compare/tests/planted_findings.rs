//! The comparison of `compare` is tried on wrong models, each with one planted error: it must find the error and shrink the two
//! recordings to a few bytes. `-- --nocapture` shows each shrunk case.

use compare::parting::Pair;
use compare::programs::planted::{self, Seen};
use compare::programs::{By, Compared, Comparer, Given};
use compare::recording::Recording;
use compare::Call;
use model::comparison::{Held, Parting, Unreadable, Which};
use model::findings::{Bad, Findings};
use model::lines::{Form, Lines};
use model::{own_fields, Comparisons, Document01, Recordings, Rules, LAST_CODE};

/// Wrong models, each by the words that say what is wrong and the rules of what is printed that it changes.
macro_rules! planted {
    ($(($words:literal, $name:ident { $($rule:tt)* }))*) => {
        $(
            struct $name;
            impl Rules for $name {}
            impl Recordings for $name {}
            impl Lines for $name {}
            impl Comparisons for $name {}
            impl Findings for $name { $($rule)* }
        )*
        const PLANTED: &[(&str, &dyn Findings)] = &[$(($words, &$name)),*];
    };
}

planted! {
    ("one operation is told as operations", OneOperations {
        fn operations_in_words(&self, operations: usize) -> String {
            format!("{operations} operations")
        }
    })
    ("no operations are told as one", ZeroOperation {
        fn operations_in_words(&self, operations: usize) -> String {
            if operations == 0 { "0 operation".into() } else { Document01.operations_in_words(operations) }
        }
    })
    ("one operation is told as operations at the front alone", OneAtTheFront {
        fn equal_line(&self, equal: usize) -> String {
            format!("equal at the front: {equal} operations")
        }
    })
    ("the unequal operation is counted from 0", UnequalFrom0 {
        fn unequal_line(&self, equal: usize, names: Vec<&'static str>) -> String {
            Document01.unequal_line(equal, names).replacen(&(equal + 1).to_string(), &equal.to_string(), 1)
        }
    })
    ("names have no comma between them", NamesWithoutComma {
        fn unequal_line(&self, equal: usize, names: Vec<&'static str>) -> String {
            Document01.unequal_line(equal, names).replace(", ", " ")
        }
    })
    ("only the first name is told", FirstName {
        fn names(&self, numbers: [u64; 6], differing: u64) -> Vec<&'static str> {
            Document01.names(numbers, differing)[..1].to_vec()
        }
    })
    ("the cycles are named behind the fields", CyclesLast {
        fn names(&self, numbers: [u64; 6], differing: u64) -> Vec<&'static str> {
            let mut names = Document01.names(numbers, differing);
            names.sort_by_key(|&name| name == "cycles");
            names
        }
    })
    ("the code is named by the operation's word", CodeByWord {
        fn names(&self, numbers: [u64; 6], differing: u64) -> Vec<&'static str> {
            if differing == 1 { vec![self.word(numbers[0])] } else { Document01.names(numbers, differing) }
        }
    })
    ("the fields of a resume are named as those of a return", ResumeAsReturn {
        fn names(&self, mut numbers: [u64; 6], differing: u64) -> Vec<&'static str> {
            if numbers[0] == 9 {
                numbers[0] = 3;
            }
            Document01.names(numbers, differing)
        }
    })
    ("fields are named by their letters", Letters {
        fn names(&self, numbers: [u64; 6], differing: u64) -> Vec<&'static str> {
            let own = 2 + own_fields(numbers[0]).expect("it was read");
            let names = ["code", "cycles", "a", "b", "c", "d"].into_iter().take(own).enumerate();
            names.filter(|(place, _)| differing >> place & 1 == 1).map(|(_, name)| name).collect()
        }
    })
    ("the pair stands behind two spaces", TwoSpaces {
        fn shown(&self, numbers: [u64; 6]) -> String {
            Document01.shown(numbers).replacen("    ", "  ", 1)
        }
    })
    ("the pair is shown in numbers", ShownInNumbers {
        fn shown(&self, numbers: [u64; 6]) -> String {
            format!("    {}", Lines::numbers(self, numbers))
        }
    })
    ("the second's operation is shown first", PairSwapped {
        fn lines_of(&self, held: &[Held; 2], parting: &Parting) -> String {
            let text = Document01.lines_of(held, parting);
            let mut lines: Vec<&str> = text.split_inclusive('\n').collect();
            if parting.differing != 0 {
                lines.swap(2, 3);
            }
            lines.concat()
        }
    })
    ("the pair is not shown", PairNotShown {
        fn lines_of(&self, held: &[Held; 2], parting: &Parting) -> String {
            let text = Document01.lines_of(held, parting);
            text.split_inclusive('\n').filter(|line| !line.starts_with("    ")).collect()
        }
    })
    ("the last line is left out where neither ends first", NeitherNotTold {
        fn lines_of(&self, held: &[Held; 2], parting: &Parting) -> String {
            Document01.lines_of(held, parting).replace("neither ends first\n", "")
        }
    })
    ("equal recordings have one line", NoDifferenceNotTold {
        fn lines_of(&self, held: &[Held; 2], parting: &Parting) -> String {
            Document01.lines_of(held, parting).replace("no difference\n", "")
        }
    })
    ("neither ends first is told of equal recordings", NeitherOfEqual {
        fn last_line(&self, held: &[Held; 2], parting: &Parting) -> String {
            Document01.last_line(held, parting).replace("no difference", "neither ends first")
        }
    })
    ("which ends first is not told behind an unequal pair", NotBehindUnequal {
        fn last_line(&self, held: &[Held; 2], parting: &Parting) -> String {
            let unequal = parting.differing != 0;
            if unequal { "neither ends first".into() } else { Document01.last_line(held, parting) }
        }
    })
    ("first and second are exchanged", WordsExchanged {
        fn word_of(&self, which: Which) -> &'static str {
            Document01.word_of(which.other())
        }
    })
    ("what is left is told of the shorter", LeftOfShorter {
        fn ends_line(&self, held: &[Held; 2], parting: &Parting, ends_first: Which) -> String {
            let line = Document01.ends_line(held, parting, ends_first);
            let left = format!("left of the {}", self.word_of(parting.rest_of));
            line.replace(&left, &format!("left of the {}", self.word_of(ends_first)))
        }
    })
    ("all operations of the longer are told as left", AllLeft {
        fn ends_line(&self, held: &[Held; 2], parting: &Parting, ends_first: Which) -> String {
            let longer = parting.rest_of.of(held.each_ref()).operations.len();
            let left = longer - parting.rest_of.other().of(held.each_ref()).operations.len();
            let [left, all] = [left, longer].map(|operations| self.operations_in_words(operations));
            let line = Document01.ends_line(held, parting, ends_first);
            line.replace(&format!(": {left},"), &format!(": {all},"))
        }
    })
    ("bytes are counted from 1", BytesFrom1 {
        fn ends_line(&self, held: &[Held; 2], parting: &Parting, ends_first: Which) -> String {
            let at = parting.rest.start;
            let line = Document01.ends_line(held, parting, ends_first);
            line.replace(&format!("from byte {at} on"), &format!("from byte {} on", at + 1))
        }
    })
    ("--numbers has a comma between two", NumbersWithComma {
        fn line_of_numbers(&self, numbers: [u64; 9]) -> String {
            Document01.line_of_numbers(numbers).replace(' ', ", ")
        }
    })
    ("--numbers shows what differs in hexadecimal", NumbersHexadecimal {
        fn line_of_numbers(&self, numbers: [u64; 9]) -> String {
            numbers.map(|number| format!("{number:x}")).join(" ") + "\n"
        }
    })
    ("--numbers shows the first three numbers of a refusal alone", NumbersOfRefusal {
        fn line_of_numbers(&self, numbers: [u64; 9]) -> String {
            let told = if numbers[0] == 0 { &numbers[..] } else { &numbers[..3] };
            told.iter().map(u64::to_string).collect::<Vec<_>>().join(" ") + "\n"
        }
    })
    ("--numbers shows nothing of a refusal", NoNumbersOfRefusal {
        fn line_of_numbers(&self, numbers: [u64; 9]) -> String {
            if numbers[0] == 0 { Document01.line_of_numbers(numbers) } else { String::new() }
        }
    })
    ("how many are equal is printed before what is bad", EqualBeforeBad {
        fn of_unreadable(&self, held: &[Held; 2]) -> String {
            self.equal_line(self.equal(held)) + "\n"
        }
    })
    ("the bad operation is counted from 0", BadFrom0 {
        fn bad(&self, held: &[Held; 2], unreadable: Unreadable) -> Bad {
            let bad = Document01.bad(held, unreadable);
            Bad { operation: bad.operation - 1, ..bad }
        }
    })
    ("the second is named where both are bad", SecondNamed {
        fn bad(&self, held: &[Held; 2], unreadable: Unreadable) -> Bad {
            let second = held[1].bad.map(|stop| Unreadable { which: Which::Second, stop });
            Document01.bad(held, second.unwrap_or(unreadable))
        }
    })
    ("the other recording's operation is named", OtherOperation {
        fn bad(&self, held: &[Held; 2], unreadable: Unreadable) -> Bad {
            let other = unreadable.which.other().of(held.each_ref());
            Bad { operation: other.operations.len() + 1, ..Document01.bad(held, unreadable) }
        }
    })
}

/// Short pairs: of each code, unequal in each number and in all, alone and behind others; fronts; and bad ones.
fn pairs() -> Vec<Pair> {
    let mut pairs = Vec::new();
    let bytes = |calls: &[Call]| Recording::of(calls).bytes;
    let before = Call([7, 1, 0, 0, 0, 0]);
    for code in 0..=LAST_CODE {
        let one = Call([code, 10, 0, 1, 32, 300]);
        let all = Call([code, 11, 1, 2, 33, 301]);
        let others = (0..6).map(|place| {
            let mut other = one;
            other.0[place] = if place == 0 { (code + 1) % (LAST_CODE + 1) } else { all.0[place] };
            other
        });
        for other in others.chain([one, all]) {
            pairs.push(Pair { first: bytes(&[one]), second: bytes(&[other]) });
            pairs.push(Pair { first: bytes(&[before, one]), second: bytes(&[before, other, before]) });
            pairs.push(Pair { first: bytes(&[before, one, before, before]), second: bytes(&[before, other]) });
        }
    }
    let whole = bytes(&[before, Call([5, 0, 32, 0, 0, 0]), Call([7, 300, 0, 0, 0, 0])]);
    let cuts = (0..=whole.len()).flat_map(|first| (0..=whole.len()).map(move |second| (first, second)));
    pairs.extend(cuts.map(|(first, second)| Pair { first: whole[..first].to_vec(), second: whole[..second].to_vec() }));
    pairs
}

#[test]
fn each_planted_error_of_findings_is_found_and_shrunk() {
    const TEST: &str = "planted errors of findings";
    let Some(program) = Comparer::of_test(TEST, env!("CARGO_TARGET_TMPDIR")) else { return };
    let cases = pairs().into_iter().flat_map(|pair| Form::BOTH.map(|form| Compared { pair: pair.clone(), form }));
    let run = |compared: &Compared| compared.output(&program, By::Itself, &Given::Files);
    let seen = Seen::new(cases.collect(), run);
    let names = program.names(&Given::Files);
    let found = PLANTED
        .iter()
        .map(|&(words, wrong)| (words, seen.found(run, |compared, output| compared.difference(output, &names, wrong))));
    planted::check(TEST, found);
}
