//! Which outcomes of recordings were met, and how often.

use crate::recording::reading::Fault;
use crate::recording::Reading;
use std::fmt;

const NUMBERS: [&str; 6] = ["code", "cycles", "field 1", "field 2", "field 3", "field 4"];
const FAULTS: [&str; 5] = ["missing", "cut off", "not shortest", "2^64 or more", "over ten bytes"];
const CYCLES: [&str; 3] = ["with cycles", "with no cycles", "with malformed cycles"];

/// Which answers a group has.
const WRITTEN: [u64; 3] = [0, 2, 6];
const READ: [u64; 4] = [0, 1, 2, 6];
const CODES: [u64; 11] = [0, 1, 2, 3, 4, 5, 6, 7, 8, 9, 10];
const STEPPED: [u64; 12] = [0, 100, 102, 103, 1, 2, 3, 4, 8, 5, 6, 7];

/// How often each class was met.
#[derive(Clone, Debug, Default)]
pub struct Classes {
    written: [u64; WRITTEN.len()],
    read: [u64; READ.len()],
    stepped: [u64; STEPPED.len()],
    unknown_codes: [u64; CYCLES.len()],
    faults: [[u64; FAULTS.len()]; NUMBERS.len()],
    /// Operations that were written, that were read, and that have a bad number behind their code, by the code.
    written_codes: [u64; CODES.len()],
    read_codes: [u64; CODES.len()],
    bad_codes: [u64; CODES.len()],
}

impl Classes {
    /// Notes an answer of the writer to an operation of this code.
    pub fn note_written(&mut self, code: u64, number: u64) {
        self.written[place(&WRITTEN, number)] += 1;
        if number == 0 {
            self.written_codes[place(&CODES, code)] += 1;
        }
    }

    /// Notes an answer of the reader, and of a step at the same position, where the first byte is this one.
    pub fn note_read(&mut self, read: u64, stepped: u64, reading: Reading, first: Option<u8>) {
        self.read[place(&READ, read)] += 1;
        self.stepped[place(&STEPPED, stepped)] += 1;
        if read == 6 || stepped == 7 {
            // One of the two did not come to the bytes.
            return;
        }
        let code = |first: Option<u8>| place(&CODES, first.map_or(u64::MAX, u64::from));
        match reading {
            Reading::Operation => self.read_codes[code(first)] += 1,
            Reading::UnknownCode { cycles: None } => self.unknown_codes[0] += 1,
            Reading::UnknownCode { cycles: Some(Fault::Missing | Fault::CutOff) } => self.unknown_codes[1] += 1,
            Reading::UnknownCode { cycles: Some(_) } => self.unknown_codes[2] += 1,
            Reading::Faulty { number, fault } => {
                self.faults[number][fault as usize] += 1;
                if number > 0 {
                    self.bad_codes[code(first)] += 1;
                }
            }
        }
    }

    /// The classes of writing that were met fewer than `least` times.
    pub fn rarely_written(&self, least: u64) -> Vec<String> {
        let codes = named("written code", &CODES, &self.written_codes);
        rare(named("written", &WRITTEN, &self.written).chain(codes), least)
    }

    /// The classes of reading and stepping that were met fewer than `least` times.
    pub fn rarely_read(&self, least: u64) -> Vec<String> {
        let read = named("read", &READ, &self.read);
        let stepped = named("stepped", &STEPPED, &self.stepped);
        let unknown = CYCLES.iter().zip(self.unknown_codes).map(|(name, met)| (format!("unknown code {name}"), met));
        let faults = NUMBERS.iter().zip(&self.faults).flat_map(|(number, met)| {
            FAULTS.iter().zip(met).map(move |(fault, &met)| (format!("{number} {fault}"), met))
        });
        let read_codes = named("read code", &CODES, &self.read_codes);
        let bad_codes = named("a bad number behind code", &CODES, &self.bad_codes);
        rare(read.chain(stepped).chain(unknown).chain(faults).chain(read_codes).chain(bad_codes), least)
    }
}

pub(crate) fn place(numbers: &[u64], number: u64) -> usize {
    let place = numbers.iter().position(|&listed| listed == number);
    place.unwrap_or_else(|| panic!("the answer {number} is not in {numbers:?}"))
}

pub(crate) fn named<'c>(
    group: &'c str,
    numbers: &'c [u64],
    met: &'c [u64],
) -> impl Iterator<Item = (String, u64)> + 'c {
    numbers.iter().zip(met).map(move |(number, &met)| (format!("{group}: {number}"), met))
}

pub(crate) fn rare(classes: impl Iterator<Item = (String, u64)>, least: u64) -> Vec<String> {
    classes.filter(|&(_, met)| met < least).map(|(name, met)| format!("{name}: {met}")).collect()
}

impl fmt::Display for Classes {
    fn fmt(&self, f: &mut fmt::Formatter<'_>) -> fmt::Result {
        answers(f, "written", &WRITTEN, &self.written)?;
        answers(f, "read", &READ, &self.read)?;
        answers(f, "stepped", &STEPPED, &self.stepped)?;
        answers(f, "codes written ", &CODES, &self.written_codes)?;
        answers(f, "codes read ", &CODES, &self.read_codes)?;
        answers(f, "codes before a bad number ", &CODES, &self.bad_codes)?;
        if self.read.iter().all(|&met| met == 0) {
            return Ok(());
        }
        writeln!(f, "  unknown codes:")?;
        for (name, met) in CYCLES.iter().zip(self.unknown_codes) {
            writeln!(f, "    {name:<24}{met:>10}")?;
        }
        write!(f, "  bad numbers:{:<4}", "")?;
        FAULTS.iter().try_for_each(|fault| write!(f, "{fault:>16}"))?;
        writeln!(f)?;
        for (number, met) in NUMBERS.iter().zip(&self.faults) {
            write!(f, "    {number:<12}")?;
            met.iter().try_for_each(|met| write!(f, "{met:>16}"))?;
            writeln!(f)?;
        }
        Ok(())
    }
}

/// A group's line: each answer's number and how often it was met.
pub(crate) fn answers(f: &mut fmt::Formatter<'_>, group: &str, numbers: &[u64], met: &[u64]) -> fmt::Result {
    if met.iter().all(|&met| met == 0) {
        return Ok(());
    }
    let answers: Vec<String> = numbers.iter().zip(met).map(|(number, met)| format!("{number}: {met}")).collect();
    writeln!(f, "  {group:<9}{}", answers.join(", "))
}
