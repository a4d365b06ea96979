//! Which outcomes of comparisons were met, and how often.

use crate::parting::{Numbers, Pair, Walk};
use crate::recording::classes::rare;
use crate::recording::Reading;
use model::{own_fields, LAST_CODE};
use std::cmp::Ordering;
use std::fmt;

/// How two recordings part that can be read.
const PARTED: [&str; 9] = [
    "equal, without operations",
    "equal",
    "the first without operations",
    "the second without operations",
    "the first a front of the second",
    "the second a front of the first",
    "a pair unequal, as many operations",
    "a pair unequal, the first ends first",
    "a pair unequal, the second ends first",
];
/// Where the first unequal pair stands among those that both have.
const PLACES: [&str; 4] = ["alone", "first", "last", "between"];
/// Bytes beside operations, where a pair is unequal.
const BYTES: [&str; 7] = [
    "as many operations and bytes",
    "as many, more bytes in the first",
    "as many, more bytes in the second",
    "the first longer, by bytes too",
    "the second longer, by bytes too",
    "the first longer, in fewer bytes",
    "the second longer, in fewer bytes",
];
/// What stands behind codes that differ.
const BEHIND_CODES: [&str; 2] = ["the same numbers", "other numbers"];
/// What is left of the longer one.
const LEFT: [&str; 4] =
    ["of the first, one operation", "of the first, more", "of the second, one operation", "of the second, more"];
/// Where bad numbers stand of which the first recording's is told.
const BOTH: [&str; 3] = ["the second's further in front", "at the same byte", "the second's further behind"];

/// What differs alone in a pair of one code, and several at once.
const DIFFERING: [&str; 6] = ["cycles", "a", "b", "c", "d", "several"];
const SEVERAL: usize = DIFFERING.len() - 1;
const OF_EACH: [&str; 2] = ["of the first", "of the second"];

/// Whose bad number is told, and whether the other recording has one too.
const TOLD: [&str; 3] = ["the first's alone", "the first's of both", "the second's"];
const OF_BOTH: usize = 1;
const OF_SECOND: usize = 2;
const FAULTS: [&str; 6] = ["missing", "cut off", "not shortest", "2^64 or more", "over ten bytes", "unknown code"];
const UNKNOWN_CODE: usize = FAULTS.len() - 1;
const NUMBERS: [&str; 6] = ["code", "cycles", "field 1", "field 2", "field 3", "field 4"];
/// Where it stands beside what can be read of the other recording.
const BESIDE: [&str; 3] = ["among equal ones", "behind an unequal one", "behind its end"];
const BEHIND_ITS_END: usize = BESIDE.len() - 1;

const CODES: usize = LAST_CODE as usize + 1;

/// How often each class was met.
#[derive(Clone, Debug, Default)]
pub struct Classes {
    parted: [u64; PARTED.len()],
    places: [u64; PLACES.len()],
    bytes: [u64; BYTES.len()],
    behind_codes: [u64; BEHIND_CODES.len()],
    left: [u64; LEFT.len()],
    both: [u64; BOTH.len()],
    differing: [[u64; DIFFERING.len()]; CODES],
    codes: [[u64; OF_EACH.len()]; CODES],
    faults: [[u64; FAULTS.len()]; TOLD.len()],
    numbers: [[u64; NUMBERS.len()]; TOLD.len()],
    beside: [[u64; BESIDE.len()]; TOLD.len()],
}

impl Classes {
    /// Notes a pair, what was answered, and what single reads find in each recording.
    pub fn note(&mut self, pair: &Pair, answer: Numbers, walks: &[Walk; 2]) {
        if answer[0] == 0 {
            self.note_parted(answer, walks);
        } else {
            self.note_bad(pair, answer, walks);
        }
    }

    fn note_parted(&mut self, answer: Numbers, walks: &[Walk; 2]) {
        let [_, _, _, equal, ends_first, differing, rest_of, ..] = answer;
        let counts = walks.each_ref().map(|walk| walk.ends.len());
        self.parted[parted_class(counts, differing)] += 1;
        if ends_first != 0 {
            let more = counts[0].abs_diff(counts[1]) > 1;
            self.left[2 * (rest_of as usize - 1) + usize::from(more)] += 1;
        }
        if differing != 0 {
            self.places[place_class(equal as usize, counts[0].min(counts[1]))] += 1;
            let class = bytes_class(counts, walks.each_ref().map(|walk| walk.length));
            class.into_iter().for_each(|class| self.bytes[class] += 1);
            self.note_unequal(differing, walks.each_ref().map(|walk| walk.operations[equal as usize]));
        }
    }

    fn note_unequal(&mut self, differing: u64, [one, other]: [[u64; 6]; 2]) {
        let codes = [one[0] as usize, other[0] as usize];
        if differing == brb::DIFFERING_CODE {
            self.behind_codes[usize::from(one[1..] != other[1..])] += 1;
            (0..2).for_each(|each| self.codes[codes[each]][each] += 1);
        } else {
            let alone = differing.is_power_of_two();
            self.differing[codes[0]][if alone { differing.trailing_zeros() as usize - 1 } else { SEVERAL }] += 1;
        }
    }

    fn note_bad(&mut self, pair: &Pair, [_, which, at, ..]: Numbers, walks: &[Walk; 2]) {
        let told = match (which, walks[1].bad) {
            (brb::FIRST, None) => 0,
            (brb::FIRST, Some((_, second))) => {
                self.both[(second.cmp(&at) as i8 + 1) as usize] += 1;
                OF_BOTH
            }
            _ => OF_SECOND,
        };
        let (bytes, of, other) = match told {
            OF_SECOND => (&pair.second, &walks[1], &walks[0]),
            _ => (&pair.first, &walks[0], &walks[1]),
        };
        let (number, fault) = match Reading::of(bytes, of.end()) {
            Reading::Faulty { number, fault } => (number, fault as usize),
            _ => (0, UNKNOWN_CODE),
        };
        self.faults[told][fault] += 1;
        self.numbers[told][number] += 1;
        let ended = other.bad.is_none() && of.ends.len() >= other.ends.len();
        let beside = if Walk::unequal(walks).is_some() { 1 } else { BEHIND_ITS_END * usize::from(ended) };
        self.beside[told][beside] += 1;
    }

    /// The classes that were met fewer than `least` times.
    pub fn rare(&self, least: u64) -> Vec<String> {
        let worded = self.worded().into_iter().flat_map(|(group, names, met)| {
            names.iter().zip(met).map(move |(name, &met)| (format!("{group}: {name}"), met))
        });
        let tables = self.tables();
        let tables = tables.iter().flat_map(|table| {
            let name = |row: &str, column: &str| format!("{}: {row}, {column}", table.name);
            table.rows.iter().flat_map(move |(row, met)| {
                let met = table.columns.iter().zip(met).filter_map(|(column, &met)| Some((column, met?)));
                met.map(|(column, met)| (name(row, column), met)).collect::<Vec<_>>()
            })
        });
        rare(worded.chain(tables), least)
    }

    /// The groups of single classes.
    fn worded(&self) -> [(&str, &[&str], &[u64]); 6] {
        [
            ("two that can be read", &PARTED, &self.parted),
            ("the first unequal pair", &PLACES, &self.places),
            ("operations and bytes, where a pair is unequal", &BYTES, &self.bytes),
            ("behind codes that differ", &BEHIND_CODES, &self.behind_codes),
            ("left of the longer", &LEFT, &self.left),
            ("bad numbers in both", &BOTH, &self.both),
        ]
    }

    fn tables(&self) -> [Table; 5] {
        let codes: Vec<String> = (0..CODES).map(|code| format!("code {code}")).collect();
        let told = TOLD.map(String::from);
        // An operation has only its own fields to differ in.
        let has = |code: usize, class: usize| {
            let own = own_fields(code as u64).expect("a known code");
            class <= own || class == SEVERAL && own > 0
        };
        // A recording that cannot be read has no end.
        let can = |told: usize, beside: usize| (told, beside) != (OF_BOTH, BEHIND_ITS_END);
        let always = |_, _| true;
        [
            Table::new("what differs", &codes, &DIFFERING, &self.differing, has),
            Table::new("codes that differ", &codes, &OF_EACH, &self.codes, always),
            Table::new("bad numbers", &told, &FAULTS, &self.faults, always),
            Table::new("which numbers are bad", &told, &NUMBERS, &self.numbers, always),
            Table::new("beside the other", &told, &BESIDE, &self.beside, can),
        ]
    }
}

/// Classes by rows and columns.
struct Table {
    name: &'static str,
    columns: Vec<&'static str>,
    /// How often each was met; none where there is no such class.
    rows: Vec<(String, Vec<Option<u64>>)>,
}

impl Table {
    fn new<const N: usize>(
        name: &'static str,
        rows: &[String],
        columns: &[&'static str; N],
        met: &[[u64; N]],
        is_class: impl Fn(usize, usize) -> bool,
    ) -> Table {
        let met = met.iter().enumerate().map(|(row, met)| {
            let met = met.iter().enumerate().map(|(column, &met)| is_class(row, column).then_some(met));
            met.collect()
        });
        Table { name, columns: columns.to_vec(), rows: rows.iter().cloned().zip(met).collect() }
    }
}

fn parted_class(counts: [usize; 2], differing: u64) -> usize {
    let by_counts = |equal: usize, less: usize, greater: usize| match counts[0].cmp(&counts[1]) {
        Ordering::Equal => equal,
        Ordering::Less => less,
        Ordering::Greater => greater,
    };
    match counts {
        [0, 0] => 0,
        [0, _] => 2,
        [_, 0] => 3,
        _ if differing == 0 => by_counts(1, 4, 5),
        _ => by_counts(6, 7, 8),
    }
}

/// Where one of so many stands.
fn place_class(place: usize, pairs: usize) -> usize {
    match (place, pairs) {
        (_, 1) => 0,
        (0, _) => 1,
        _ if place + 1 == pairs => 2,
        _ => 3,
    }
}

/// Which is longer by operations, and which by bytes. There is no class for as many bytes where one is longer.
fn bytes_class(counts: [usize; 2], lengths: [usize; 2]) -> Option<usize> {
    match (counts[0].cmp(&counts[1]), lengths[0].cmp(&lengths[1])) {
        (Ordering::Equal, Ordering::Equal) => Some(0),
        (Ordering::Equal, Ordering::Greater) => Some(1),
        (Ordering::Equal, Ordering::Less) => Some(2),
        (Ordering::Greater, Ordering::Greater) => Some(3),
        (Ordering::Less, Ordering::Less) => Some(4),
        (Ordering::Greater, Ordering::Less) => Some(5),
        (Ordering::Less, Ordering::Greater) => Some(6),
        (_, Ordering::Equal) => None,
    }
}

impl fmt::Display for Classes {
    fn fmt(&self, f: &mut fmt::Formatter<'_>) -> fmt::Result {
        for (group, names, met) in self.worded() {
            writeln!(f, "  {group}:")?;
            for (name, met) in names.iter().zip(met) {
                writeln!(f, "    {name:<40}{met:>8}")?;
            }
        }
        for Table { name, columns, rows } in self.tables() {
            write!(f, "  {:<24}", format!("{name}:"))?;
            columns.iter().try_for_each(|column| write!(f, "{column:>22}"))?;
            writeln!(f)?;
            for (row, met) in rows {
                write!(f, "    {row:<22}")?;
                let shown = |met: Option<u64>| met.map_or("-".into(), |met| met.to_string());
                met.into_iter().try_for_each(|met| write!(f, "{:>22}", shown(met)))?;
                writeln!(f)?;
            }
        }
        Ok(())
    }
}
