//! Demand 3 on sequences, by exact bookkeeping that knows nothing of the model. Over neighbouring valid records of which all
//! but the oldest have a known, not exceeded count, S is the sum of the smallest counts that these may be, U that of the
//! largest, and T the exact cycles that passed from the oldest's event to the newest's. T lies between the two and near the
//! first: S <= T, 256 (T - S) <= S, and T <= U. The longest stretch from each record is added up by the library too.
//!
//! Each event gets addresses that no other has, so that a record itself says which event it came from. A halt hands in its
//! source alone and a resume its target, and their records show no more.

use crate::engine::is_refused;
use crate::generate::Flavour;
use crate::watch::{self, Step, Watch};
use crate::{Call, Engine, Random, Sequence};
use brb::{Count, Inf, Spread};
use model::Record;
use std::ops::AddAssign;

/// The first address that is given to an event. Event n has source BASE + 2n and target BASE + 2n + 1.
const BASE: u64 = 1 << 40;
/// How many operations pass between two looks at all the records.
const INTERVAL: usize = 16;

/// When each event of a sequence happened, by the cycles of accepted operations.
#[derive(Default)]
struct Bookkeeping {
    clock: u128,
    times: Vec<u128>,
}

impl Watch for Bookkeeping {
    type Seen = Kept;
    const FLAVOURS: &'static [Flavour] = &[
        Flavour::Recording,
        Flavour::Recording,
        Flavour::Boundary,
        Flavour::Roaming,
        Flavour::Halting,
        Flavour::Freezing,
    ];
    const ROOM: usize = 192;

    /// The same operation, with an event's own addresses.
    fn tagged(&self, call: Call) -> Call {
        let Call([code, cycles, a, b, ..]) = call;
        let source = BASE + 2 * self.times.len() as u64;
        match code {
            1..=3 => Call([code, cycles, a, b, source, source + 1]),
            8 => Call([code, cycles, source, 0, 0, 0]),
            9 => Call([code, cycles, source + 1, b, 0, 0]),
            _ => call,
        }
    }

    fn look(&mut self, step: &Step) -> Result<Kept, String> {
        self.note(step.call, step.answer.0);
        if step.place % INTERVAL != 0 && !step.is_last {
            return Ok(Kept::default());
        }
        self.check(&step.after.records().collect::<Vec<_>>())
    }
}

impl Bookkeeping {
    /// Notes an answered operation: refused ones and resets take no time.
    fn note(&mut self, call: Call, number: u64) {
        if !is_refused(number) && call.code() != 0 {
            self.clock += u128::from(call.cycles());
        }
        if call.is_event() {
            self.times.push(self.clock);
        }
    }

    /// When the event of a valid record happened.
    fn time(&self, record: &[u64]) -> Option<u128> {
        let address = if valid(record) == 1 { record[2].checked_sub(1)? } else { record[1] };
        self.times.get(usize::try_from(address.checked_sub(BASE)? / 2).ok()?).copied()
    }

    /// The records' stretches that keep demand 3, or one that does not.
    fn check(&self, records: &[Record]) -> Result<Kept, String> {
        let cc: Vec<u64> = records.iter().map(|record| brb::inf_cc_of(record[0])).collect();
        let shown: Vec<Shown> = records.iter().map(|record| self.shown(record)).collect();
        let mut kept = Kept::default();
        for newest in 0..shown.len() {
            let (stretches, sum) = kept.note_from(&shown, newest)?;
            if stretches > 0 {
                check_sum(brb::count_sum(&cc[newest..newest + stretches]), sum)
                    .map_err(|how| format!("records {newest} to {}: {how}", newest + stretches))?;
            }
        }
        Ok(kept)
    }

    /// What a record says, and when its event happened.
    fn shown(&self, record: &[u64]) -> Shown {
        let kind = brb::inf_type_of(record[0]);
        Shown { valid: valid(record) != 0, kind, time: self.time(record), ends: ends(record[0]) }
    }
}

/// A record, as far as demand 3 speaks of it.
struct Shown {
    valid: bool,
    kind: u64,
    /// When its event happened; none where it has no event's address.
    time: Option<u128>,
    /// The smallest and the largest count that it may have, where it is valid and its count known and not exceeded.
    ends: Option<(u64, u64)>,
}

/// S and U.
#[derive(Clone, Copy, Default)]
struct Sum {
    smallest: u128,
    largest: u128,
}

/// How many stretches kept demand 3.
#[derive(Clone, Copy, Debug, Default)]
pub struct Kept {
    pub stretches: u64,
    /// Those of them whose S and U differ.
    pub spread: u64,
    /// Those that end with a halt's record, whose count is known.
    pub to_halts: u64,
    /// Those that begin with a resume's record, whose count never is.
    pub from_resumes: u64,
}

impl Kept {
    /// Checks and notes the stretches from a newest record on, each one record longer than the one before. Answers how many
    /// there are, and the sum over the longest.
    fn note_from(&mut self, shown: &[Shown], newest: usize) -> Result<(usize, Sum), String> {
        let mut sum = Sum::default();
        for oldest in newest + 1..shown.len() {
            let (Some((smallest, largest)), true) = (shown[oldest - 1].ends, shown[oldest].valid) else {
                return Ok((oldest - 1 - newest, sum));
            };
            sum.smallest += u128::from(smallest);
            sum.largest += u128::from(largest);
            check_stretch(&shown[newest], &shown[oldest], sum)
                .map_err(|how| format!("records {newest} to {oldest}: {how}"))?;
            self.stretches += 1;
            self.spread += u64::from(sum.smallest < sum.largest);
            self.to_halts += u64::from(shown[newest].kind == brb::TYPE_DEBUG_HALT);
            self.from_resumes += u64::from(shown[oldest].kind == brb::TYPE_DEBUG_EXIT);
        }
        Ok((shown.len() - 1 - newest, sum))
    }
}

impl AddAssign for Kept {
    fn add_assign(&mut self, more: Kept) {
        self.stretches += more.stretches;
        self.spread += more.spread;
        self.to_halts += more.to_halts;
        self.from_resumes += more.from_resumes;
    }
}

/// The three parts of demand 3, of the stretch between two records.
fn check_stretch(newest: &Shown, oldest: &Shown, sum: Sum) -> Result<(), String> {
    let (end, start) = newest.time.zip(oldest.time).ok_or("one has no event's address")?;
    let passed = end.checked_sub(start).ok_or("the older is younger")?;
    let Sum { smallest, largest } = sum;
    let broken = if passed < smallest {
        "T is below S"
    } else if 256 * (passed - smallest) > smallest {
        "T is more than one part in 256 above S"
    } else if passed > largest {
        "T is above U"
    } else {
        return Ok(());
    };
    Err(format!("{broken}: S = {smallest}, T = {passed}, U = {largest}"))
}

/// What the library adds up has the same two ends.
fn check_sum(spread: Spread, sum: Sum) -> Result<(), String> {
    let Spread { number, low, high, bounded } = spread;
    if (number, bounded) == (0, 1) && (u128::from(low), u128::from(high)) == (sum.smallest, sum.largest) {
        return Ok(());
    }
    Err(format!("S = {}, U = {}, and the library adds up to {spread:?}", sum.smallest, sum.largest))
}

/// BRBINF's VALID.
fn valid(record: &[u64]) -> u64 {
    record[0] & 3
}

/// The ends of a valid record's known and not exceeded count.
fn ends(inf: u64) -> Option<(u64, u64)> {
    let inf = Inf::of(inf);
    match inf.count() {
        Some(Count::Known { low, high }) if inf.valid != 0 => Some((low, high)),
        _ => None,
    }
}

/// Random sequences, until at least so many operations were run: how many stretches kept demand 3, or a shrunk sequence that
/// breaks it, and how.
pub fn explore(engine: &dyn Engine, random: &mut Random, operations: u64) -> Result<Kept, (Sequence, String)> {
    watch::explore::<Bookkeeping>(engine, random, operations)
}
