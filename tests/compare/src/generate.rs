//! Random operations, states and rooms. The generator looks at the state, so that most operations are accepted, and
//! makes each mistake on purpose often enough.

use crate::engine::Lent;
use crate::shares::REASONS;
use crate::{Call, Random, Single};
use model::{BranchType, Platform, State, CONTROL_MASK, EXCEPTION_TYPES, FILTER_MASK, LAST_CODE, PAUSED};
use std::collections::VecDeque;

/// The sizes of buffers.
pub const SIZES: [u64; 4] = [8, 16, 32, 64];
const LIMIT: u64 = 1_048_576;
/// TS and FZP of BRBCR_EL1 or BRBCR_EL2, by which freezes go.
const FREEZE_BITS: u64 = 0x160;
/// Where a count of the processor's clock or an offset begins, turns and ends.
const CLOCK_EDGES: [u64; 6] = [0, 1, (1 << 63) - 1, 1 << 63, u64::MAX - 1, u64::MAX];

/// What a sequence is mostly about.
#[derive(Clone, Copy, Debug, PartialEq, Eq)]
pub enum Flavour {
    /// Records: counting and recording on nearly everywhere.
    Recording,
    /// Everything that is valid, with levels, platform words and filters moving.
    Roaming,
    /// As `Recording`, with cycles at the bounds.
    Boundary,
    /// Accesses, with traps and at every level.
    Accessing,
    /// As `Roaming`, with a halt or a resume every few operations.
    Halting,
    /// As `Recording`, with a freeze every few operations.
    Freezing,
    /// Nearly every event is a record, and little else happens than reads of them, so that the records go round often.
    Rounding,
    /// Every other operation has a mistake.
    Careless,
}

impl Flavour {
    pub const ALL: [Flavour; 8] = [
        Flavour::Recording,
        Flavour::Roaming,
        Flavour::Boundary,
        Flavour::Accessing,
        Flavour::Halting,
        Flavour::Freezing,
        Flavour::Rounding,
        Flavour::Careless,
    ];

    /// Of a single call the states are made at once, with any start, so that nothing has to go round first.
    const OF_SINGLE_CALLS: [Flavour; 7] = [
        Flavour::Recording,
        Flavour::Roaming,
        Flavour::Boundary,
        Flavour::Accessing,
        Flavour::Halting,
        Flavour::Freezing,
        Flavour::Careless,
    ];

    /// How often an operation of each code is made; the last is that of a mistake. Whether the processor is halted decides what
    /// becomes of it then ([`Generator::taken_while_halted`]).
    fn weights(self) -> [u64; MISTAKE + 1] {
        match self {
            Flavour::Recording => [2, 600, 150, 150, 10, 40, 30, 4, 10, 0, 3, 10],
            Flavour::Roaming => [10, 200, 200, 200, 80, 100, 150, 10, 20, 10, 30, 40],
            Flavour::Boundary => [2, 500, 150, 150, 10, 40, 40, 10, 20, 0, 5, 10],
            Flavour::Accessing => [5, 30, 100, 150, 60, 350, 200, 130, 20, 10, 10, 20],
            Flavour::Halting => [10, 150, 100, 100, 60, 60, 80, 10, 150, 150, 30, 40],
            Flavour::Freezing => [5, 200, 100, 100, 20, 40, 100, 4, 20, 10, 350, 10],
            Flavour::Rounding => [9, 500, 20, 20, 2, 300, 60, 2, 5, 0, 1, 10],
            Flavour::Careless => [40, 100, 100, 100, 50, 60, 60, 20, 50, 30, 60, 560],
        }
    }
}

/// The place of mistakes among the weights, behind those of the codes.
const MISTAKE: usize = LAST_CODE as usize + 1;

/// A state's numbers by name, whatever they are.
struct Seen {
    level: u64,
    platform: u64,
    count: u64,
    halted: bool,
    paused: bool,
    size: u64,
    start: u64,
    bank: u64,
}

impl Seen {
    /// EL3, where a reset leads to.
    const AT_EL3: Seen =
        Seen { level: 3, platform: 0, count: 0, halted: false, paused: false, size: 0, start: 0, bank: 0 };

    fn new(state: &[u64]) -> Seen {
        let number = |place: usize| state.get(place).copied().unwrap_or(0);
        let (halted, paused) = (number(9) == 1, number(6) & PAUSED != 0);
        let (size, start, bank) = (number(1).min(64), number(11).min(64), number(6) >> 28 & 3);
        Seen { level: number(0).min(3), platform: number(3), count: number(7), halted, paused, size, start, bank }
    }

    /// The number of the record that stands at the last place, or that has gone round to place 0, or one beside them: m of its
    /// register, where the bank shows it.
    fn near_the_end(&self, beside: u64) -> Option<u64> {
        let record = (self.size + beside).checked_sub(self.start + 2)?;
        (record < self.size && record / 32 == self.bank).then_some(record % 32)
    }

    fn el2_enabled(&self) -> bool {
        self.platform & 3 != 0
    }

    fn can_be_entered(&self, level: u64) -> bool {
        match level {
            1 => !(self.platform & 4 != 0 && self.el2_enabled()),
            2 => self.el2_enabled(),
            _ => true,
        }
    }
}

/// A source of operations.
pub struct Generator<'r> {
    random: &'r mut Random,
    flavour: Flavour,
    /// Operations that follow a reset, to set the recorder up.
    queue: VecDeque<Call>,
}

impl<'r> Generator<'r> {
    pub fn new(random: &'r mut Random, flavour: Flavour) -> Generator<'r> {
        let mut generator = Generator { random, flavour, queue: VecDeque::new() };
        generator.begin();
        generator
    }

    /// A source of operations for a state that is there already.
    pub fn midway(random: &'r mut Random, flavour: Flavour) -> Generator<'r> {
        Generator { random, flavour, queue: VecDeque::new() }
    }

    /// Most sequences begin with a reset, some with operations before it.
    fn begin(&mut self) {
        while self.random.percent(15) {
            let code = self.random.below(LAST_CODE + 1);
            let early = self.of_code(code, &Seen::new(&[]));
            self.queue.push_back(early);
        }
        self.queue_reset();
    }

    /// The next operation in a state.
    pub fn call(&mut self, state: &[u64]) -> Call {
        if let Some(call) = self.queue.pop_front() {
            return call;
        }
        let seen = Seen::new(state);
        if seen.paused && self.random.percent(10) {
            return self.towards_recording(&seen);
        }
        match self.weighted() {
            0 => {
                self.queue_reset();
                self.queue.pop_front().expect("a reset was queued")
            }
            MISTAKE => self.mistaken(&seen),
            code => self.valid(code as u64, &seen),
        }
    }

    /// A write that clears PAUSED, after which events are recorded again. EL0 cannot write, so that an exception leads away
    /// from there first.
    fn towards_recording(&mut self, seen: &Seen) -> Call {
        if seen.level == 0 {
            return self.valid(2, seen);
        }
        let (cycles, filter) = (self.cycles(seen), self.filter() & !PAUSED);
        Call([6, cycles, 3, filter, 0, 0])
    }

    fn weighted(&mut self) -> usize {
        let weights = self.flavour.weights();
        let mut drawn = self.random.below(weights.iter().sum());
        for (kind, weight) in weights.into_iter().enumerate() {
            if drawn < weight {
                return kind;
            }
            drawn -= weight;
        }
        unreachable!("a number below the sum falls on a weight")
    }

    /// A reset and, mostly, what sets the recorder up and leaves EL3.
    fn queue_reset(&mut self) {
        let reset = self.valid(0, &Seen::new(&[]));
        self.queue.push_back(reset);
        if self.random.percent(10) {
            return;
        }
        let platform = self.valid(4, &Seen::AT_EL3);
        let seen = Seen { platform: platform.0[2], ..Seen::AT_EL3 };
        let (cr1, cr2, fcr) = (self.control(), self.control(), self.filter());
        self.queue.push_back(platform);
        for (register, value) in [(1, cr1), (2, cr2), (3, fcr)] {
            let cycles = self.cycles(&seen);
            self.queue.push_back(Call([6, cycles, register, value, 0, 0]));
        }
        let leaving = self.valid(3, &seen);
        self.queue.push_back(leaving);
    }

    /// An operation of a code that a state mostly accepts.
    fn valid(&mut self, code: u64, seen: &Seen) -> Call {
        let code = match code {
            // What a halt or the level does not permit becomes something near it.
            1..=3 | 8 if seen.halted => self.taken_while_halted(seen),
            9 if !seen.halted => 8,
            3 if seen.level == 0 => 2,
            4 if seen.level != 3 => 5,
            code => code,
        };
        self.of_code(code, seen)
    }

    /// A resume, mostly, or an operation that a halted processor takes too.
    fn taken_while_halted(&mut self, seen: &Seen) -> u64 {
        match self.random.below(10) {
            0 if seen.level == 3 => 4,
            0 | 1 => 5,
            2 => 6,
            3 => 7,
            4 => 10,
            _ => 9,
        }
    }

    /// An operation of just this code, with fields inside their lists.
    fn of_code(&mut self, code: u64, seen: &Seen) -> Call {
        let cycles = self.cycles(seen);
        let fields = match code {
            0 => [self.size(), self.random.below(2), self.beyond(), self.beyond()],
            1 => [self.branch_type(), self.random.below(2), self.address(), self.address()],
            2 => [self.random.one_of(&EXCEPTION_TYPES), self.exception_level(seen), self.address(), self.address()],
            3 => [self.return_level(seen), self.random.below(2), self.address(), self.address()],
            4 => [self.platform(), self.beyond(), self.beyond(), self.beyond()],
            5 => [self.register(seen), self.beyond(), self.beyond(), self.beyond()],
            6 => {
                let (register, value) = self.write(seen);
                [register, value, self.beyond(), self.beyond()]
            }
            8 => [self.address(), self.beyond(), self.beyond(), self.beyond()],
            9 => [self.address(), self.resume_level(seen), self.beyond(), self.beyond()],
            10 => self.freeze(),
            _ => [self.beyond(), self.beyond(), self.beyond(), self.beyond()],
        };
        let [a, b, c, d] = fields;
        Call([code, cycles, a, b, c, d])
    }

    /// An operation that is mostly refused: an unknown code, a field outside its list, a code that a halted processor does not
    /// take or that one which is not halted does not take, or a level that does not permit.
    fn mistaken(&mut self, seen: &Seen) -> Call {
        let code = self.random.below(LAST_CODE + 1);
        let mut call = self.valid(code, seen);
        match self.random.below(9) {
            0 => call.0[0] = LAST_CODE + 1 + self.random.of_length(10),
            1 => call.0[0] = self.random.number(),
            2 | 3 => self.spoil_field(&mut call),
            4 | 5 => {
                let code = if seen.halted { self.random.one_of(&[1, 2, 3, 8]) } else { 9 };
                call = self.of_code(code, seen);
            }
            _ => {
                // A level of its own choice, permitted or not.
                let level = self.random.below(4);
                call = match self.random.below(4) {
                    _ if seen.halted && self.random.percent(50) => Call([9, call.cycles(), 5, level, 0, 0]),
                    0 => Call([2, call.cycles(), self.random.one_of(&EXCEPTION_TYPES), level, 1, 2]),
                    1 => Call([3, call.cycles(), level, 0, 3, 4]),
                    2 => Call([9, call.cycles(), 5, level, 0, 0]),
                    _ => Call([4, call.cycles(), self.platform(), 0, 0, 0]),
                };
            }
        }
        // A second mistake shows which refusal is checked first.
        if self.random.percent(25) {
            self.spoil_field(&mut call);
        }
        call
    }

    /// One of the first two fields, in which all lists are.
    fn spoil_field(&mut self, call: &mut Call) {
        let field = 2 + self.random.below(2) as usize;
        call.0[field] = self.odd_number();
    }

    /// A number that is in few lists.
    fn odd_number(&mut self) -> u64 {
        match self.random.below(5) {
            0 => self.random.below(16),
            1 => 0x20 + self.random.below(16),
            2 => self.random.below(160),
            3 => 1 << self.random.below(64),
            _ => self.random.number(),
        }
    }

    fn cycles(&mut self, seen: &Seen) -> u64 {
        let near_the_limit = LIMIT.saturating_sub(seen.count);
        let bounds = [
            0,
            1,
            255,
            256,
            257,
            511,
            512,
            513,
            1023,
            LIMIT - 2,
            LIMIT - 1,
            LIMIT,
            LIMIT + 1,
            u64::MAX,
            u64::MAX - LIMIT,
            near_the_limit,
            near_the_limit.saturating_sub(1),
            near_the_limit + 1,
        ];
        let bound_share = if self.flavour == Flavour::Boundary { 60 } else { 3 };
        if self.random.percent(bound_share) {
            return self.random.one_of(&bounds);
        }
        match self.random.below(20) {
            0 => self.random.of_length(64),
            1..=4 => self.random.of_length(20),
            _ => self.random.below(600),
        }
    }

    fn address(&mut self) -> u64 {
        match self.random.below(8) {
            0 => self.random.one_of(&[0, 1, u64::MAX, 1 << 63]),
            1 => self.random.below(0x10000),
            _ => self.random.number(),
        }
    }

    /// A freeze's group, its count and its two offsets.
    fn freeze(&mut self) -> [u64; 4] {
        let physical = self.clock();
        [self.random.below(2), physical, self.offset(physical), self.offset(physical)]
    }

    /// A count of the processor's clock.
    fn clock(&mut self) -> u64 {
        match self.random.below(4) {
            0 => self.random.one_of(&CLOCK_EDGES),
            1 => self.random.of_length(64),
            _ => self.random.number(),
        }
    }

    /// An offset: any, or the count itself or one above it.
    fn offset(&mut self, physical: u64) -> u64 {
        match self.random.below(6) {
            0 => physical,
            1 => physical.wrapping_add(1),
            _ => self.clock(),
        }
    }

    /// A number beyond an operation's own fields, which is not looked at.
    fn beyond(&mut self) -> u64 {
        if self.random.percent(50) {
            0
        } else {
            self.random.of_length(64)
        }
    }

    /// The size of a reset: that with two banks more often where it is about where records stand.
    fn size(&mut self) -> u64 {
        let largest = self.flavour == Flavour::Rounding && self.random.percent(40);
        if largest {
            64
        } else {
            self.random.one_of(&SIZES)
        }
    }

    fn branch_type(&mut self) -> u64 {
        self.random.one_of(&BranchType::ALL) as u64
    }

    fn exception_level(&mut self, seen: &Seen) -> u64 {
        self.level_of(seen, seen.level.max(1), 3)
    }

    fn return_level(&mut self, seen: &Seen) -> u64 {
        self.level_of(seen, 0, seen.level)
    }

    /// Any level, in some cases one that cannot be entered.
    fn resume_level(&mut self, seen: &Seen) -> u64 {
        if self.random.percent(10) {
            self.random.below(4)
        } else {
            self.level_of(seen, 0, 3)
        }
    }

    /// A level that can be entered, from the lowest to the highest.
    fn level_of(&mut self, seen: &Seen, lowest: u64, highest: u64) -> u64 {
        loop {
            let level = lowest + self.random.below(highest - lowest + 1);
            if seen.can_be_entered(level) || self.random.percent(1) {
                return level;
            }
        }
    }

    /// A platform word: mostly non-secure with recording allowed, or else any.
    fn platform(&mut self) -> u64 {
        if self.random.percent(if self.flavour == Flavour::Rounding { 5 } else { 30 }) {
            return self.random.number() & Platform::MASK;
        }
        if self.flavour == Flavour::Rounding {
            return 0x71;
        }
        let mut platform = self.random.one_of(&[0x31, 0x31, 0x11, 0x32, 0x33, 0x30]);
        let rare = if self.flavour == Flavour::Accessing { 40 } else { 15 };
        // FGTEn more often: without it no access traps to EL2.
        for (bit, share) in [(2, rare), (3, rare), (8, rare + 15)] {
            platform |= u64::from(self.random.percent(share)) << bit;
        }
        platform |= u64::from(self.random.percent(60)) << 6;
        platform | self.random.number() & 0x3E00
    }

    /// A value for BRBCR_EL1 or BRBCR_EL2. TS 0 is the most frequent: with it in BRBCR_EL2 that of BRBCR_EL1 decides.
    fn control(&mut self) -> u64 {
        let (ts, fzp) = (self.random.one_of(&[0, 0, 0, 1, 2, 3]) << 5, u64::from(self.random.percent(80)) << 8);
        let mostly = CONTROL_MASK & !FREEZE_BITS | ts | fzp;
        match self.random.below(20) {
            _ if self.flavour == Flavour::Rounding => CONTROL_MASK & !FREEZE_BITS,
            0..=8 => mostly,
            9..=14 => mostly & !(1 << self.random.below(24)),
            15..=17 => self.random.number() & CONTROL_MASK,
            18 => self.random.number(),
            _ => 0,
        }
    }

    /// A value for BRBFCR_EL1.
    fn filter(&mut self) -> u64 {
        let types = self.random.number() & 0x7E_0000;
        let filter = match self.random.below(20) {
            _ if self.flavour == Flavour::Rounding => 0x1_0000,
            0..=7 => 0x1_0000,
            8..=10 => 0x7E_0000,
            11..=13 => 0x1_0000 | types,
            14..=16 => types,
            17 => self.random.number() & FILTER_MASK & !0x80,
            18 => 0x1_0080,
            _ => self.random.number(),
        };
        let banked = if self.flavour == Flavour::Rounding { 60 } else { 30 };
        let bank = if self.random.percent(banked) { self.random.one_of(&[0, 1, 1, 1, 2, 3]) << 28 } else { 0 };
        filter | bank
    }

    fn register(&mut self, seen: &Seen) -> u64 {
        let part = 32 * (1 + self.random.below(3));
        match (self.random.below(12), seen.near_the_end(self.random.one_of(&[0, 1, 1, 2, 2, 3]))) {
            (0..=3, _) => self.random.below(5),
            (4, _) => 4,
            (5..=8, Some(m)) => part + m,
            (5..=8, None) => part + self.random.below(9),
            _ => 32 + self.random.below(96),
        }
    }

    fn write(&mut self, seen: &Seen) -> (u64, u64) {
        match self.random.below(20) {
            0 => (self.register(seen), self.random.number()),
            1 => (4, self.random.number()),
            2..=6 => (1, self.control()),
            7..=12 => (2, self.control()),
            _ => (3, self.filter()),
        }
    }
}

/// The length of a sequence: short and long ones alike.
pub fn length(random: &mut Random) -> usize {
    1 << (3 + random.below(9))
}

/// A room for a sequence: mostly large enough for every size.
pub fn room(random: &mut Random) -> usize {
    match random.below(10) {
        0 => random.below(201) as usize,
        1 => random.one_of(&[23, 24, 25, 47, 48, 95, 96, 97, 191]),
        2..=5 => 192,
        _ => 200,
    }
}

/// A single call: any room of 0 to 200 numbers, a state that is mostly sound. The second is the reason's number where
/// it was made unsound.
pub fn single(random: &mut Random) -> (Single, Option<usize>) {
    let mut state = sound_state(random);
    let reason = random.percent(20).then(|| random.below(REASONS as u64) as usize);
    if let Some(reason) = reason {
        spoil(random, &mut state, reason);
        if random.percent(10) {
            let second = random.below(REASONS as u64) as usize;
            spoil(random, &mut state, second);
        }
    }
    let room = (0..single_room(random, &state)).map(|_| random.number()).collect();
    let flavour = random.one_of(&Flavour::OF_SINGLE_CALLS);
    let call = Generator::midway(random, flavour).call(&state);
    (Single { state, room, call }, reason)
}

/// A state and a room as a single call has them; nearly every state is sound.
pub fn sound(random: &mut Random) -> Lent {
    let state = sound_state(random);
    let room = (0..single_room(random, &state)).map(|_| random.number()).collect();
    Lent { state, room }
}

/// A state that is not sound, for the reason of this number (the order of [`crate::shares`]).
pub fn unsound(random: &mut Random, reason: usize) -> Vec<u64> {
    let mut state = sound_state(random);
    spoil(random, &mut state, reason);
    state
}

/// The sound numbers of a state and up to three past them.
fn sound_state(random: &mut Random) -> Vec<u64> {
    let flavour = random.one_of(&Flavour::OF_SINGLE_CALLS);
    let mut generator = Generator::midway(random, flavour);
    let platform = generator.platform();
    let (cr1, cr2) = (generator.control() & CONTROL_MASK, generator.control() & CONTROL_MASK);
    let paused = u64::from(generator.random.percent(10)) * PAUSED;
    let fcr = generator.filter() & FILTER_MASK | paused;
    let level = generator.level_of(&Seen { platform, ..Seen::AT_EL3 }, 0, 3);
    let time = generator.clock();
    let size = if random.percent(4) { 0 } else { random.one_of(&[8, 16, 32, 64, 64]) };
    // The second bank has records of the largest size alone.
    let fcr = if size == 64 && random.percent(40) { fcr & !(3 << 28) | 1 << 28 } else { fcr };
    let count = match random.below(4) {
        0 => random.one_of(&[0, 255, 256, 511, 513, LIMIT - 1, LIMIT]),
        _ => random.of_length(20),
    };
    let halted = u64::from(random.percent(25));
    let (v1p1, unknown) = (random.below(2), random.below(2));
    let start = start(random, size);
    let mut state = vec![level, size, v1p1, platform, cr1, cr2, fcr, count, unknown, halted, time, start];
    state.extend((0..random.below(4)).map(|_| random.number()));
    state
}

/// A sound start: any, those where a new record or a record that is read goes round more often.
pub fn start(random: &mut Random, size: u64) -> u64 {
    match random.below(10) {
        _ if size == 0 => 0,
        0 | 1 => 0,
        2 => 1,
        3 => size - 1,
        _ => random.below(size),
    }
}

/// Makes a state unsound for the reason of this number (the order of [`crate::shares`]).
fn spoil(random: &mut Random, state: &mut Vec<u64>, reason: usize) {
    if reason == 0 || state.len() < State::NUMBERS {
        state.truncate(random.below(State::NUMBERS as u64) as usize);
        return;
    }
    let outside = |random: &mut Random, mask: u64| loop {
        let outside = random.number() & random.number() & random.number() & !mask;
        if outside != 0 {
            return outside;
        }
    };
    let above = |random: &mut Random, highest: u64| highest + 1 + random.of_length(62);
    match reason {
        1 => state[0] = above(random, 3),
        2 => state[1] = random.one_of(&[1, 4, 7, 9, 12, 24, 63, 65, 72, 128, 256, 1 << 32, u64::MAX]),
        3 => state[2] = above(random, 1),
        4 => state[3] |= if random.percent(30) { 0x80 } else { outside(random, Platform::MASK) },
        5 => state[4] |= outside(random, CONTROL_MASK),
        6 => state[5] |= outside(random, CONTROL_MASK),
        7 => state[6] |= outside(random, FILTER_MASK),
        8 => {
            state[0] = 2;
            state[3] &= !3;
        }
        9 => {
            state[0] = 1;
            state[3] |= 4 | (1 + random.below(3));
        }
        10 => state[7] = above(random, LIMIT),
        11 => state[8] = above(random, 1),
        12 => state[9] = above(random, 1),
        13 => state.truncate(State::NUMBERS - 1),
        reason => spoil_start(random, state, reason - 14),
    }
}

/// How a start is not sound: six ways, as [`crate::shares`] names them. A size that is none becomes one, so that the start is
/// judged by it; the last way is before a reset.
fn spoil_start(random: &mut Random, state: &mut [u64], way: usize) {
    if !SIZES.contains(&state[1]) || (way, state[1]) == (2, 64) {
        state[1] = random.one_of(&SIZES[..3]);
    }
    let size = state[1];
    state[11] = match way {
        0 => size,
        1 => size + 1,
        2 => size + 2 + random.below(62 - size),
        3 => random.wide(64).max(64),
        4 => u64::MAX - random.below(130),
        _ => {
            state[1] = 0;
            if random.percent(50) {
                1 + random.below(63)
            } else {
                random.wide(64).max(1)
            }
        }
    };
}

/// A room's length: any from 0 to 200, or near what the state needs.
fn single_room(random: &mut Random, state: &[u64]) -> u64 {
    let needed = 3 * state.get(1).copied().filter(|&size| size <= 64).unwrap_or(0);
    match random.below(10) {
        0 | 1 => random.below(201),
        2 => needed.saturating_sub(1),
        3 => needed,
        _ => needed + random.below(201 - needed),
    }
}
