//! The rules of document 01, one method a rule, in the document's order. A rule of document 02 stands with those that it
//! adds to.

use crate::{
    bit, buffer_size, count, exception_type, flag, room, ts, Access, Answer, Asked, BranchType, Cause, Clock, Event,
    Group, Level, Operation, Outcome, Part, Platform, Record, Refusal, Register, Shape, Side, State, CONTROL_MASK,
    FILTER_MASK, LAST_CODE, PAUSED,
};

/// Document 01 as it stands, with the requests of document 02 that have landed.
#[derive(Clone, Copy, Debug, Default)]
pub struct Document01;

impl Rules for Document01 {}

/// The rules. Each method's own body is the document's rule; an implementation that overrides one is a wrong model, made
/// to see whether a comparison finds the error.
pub trait Rules {
    // ---------------------------------------------------------------------------------------------------------------
    // Operations

    /// One operation on lent numbers: its code, its cycles and four fields.
    fn step(&self, state: &mut [u64], room: &mut [u64], numbers: [u64; 6]) -> Answer {
        match self.accept(state, room.len(), numbers) {
            Err(refusal) => Answer::Refused(refusal),
            Ok((mut after, operation)) => {
                let answer = self.perform(&mut after, room, operation, numbers[1]);
                after.store(state);
                answer
            }
        }
    }

    /// An accepted operation.
    fn perform(&self, state: &mut State, room: &mut [u64], operation: Operation, cycles: u64) -> Answer {
        if !matches!(operation, Operation::Reset { .. }) {
            self.pass(state, cycles);
        }
        match operation {
            Operation::Reset { size, v1p1 } => {
                self.reset(state, room, size, v1p1);
                Answer::Done
            }
            Operation::Branch { .. }
            | Operation::Exception { .. }
            | Operation::Return { .. }
            | Operation::Halt { .. }
            | Operation::Resume { .. } => {
                if let Some(event) = operation.event(self.begins(state)) {
                    self.happen(state, room, event);
                }
                Answer::Done
            }
            Operation::Platform(platform) => {
                state.platform = platform;
                Answer::Done
            }
            Operation::Read(register) => self
                .outcome(state, Access::Read(register))
                .or_else(|| Answer::Read(self.read(state, room, self.meant(state, register)))),
            Operation::Write(register, value) => self.outcome(state, Access::Write(register)).or_else(|| {
                self.write(state, self.meant(state, register), value);
                Answer::Done
            }),
            Operation::InvalidateAll => self.iall(state, room),
            Operation::Freeze { group, clock } => {
                self.freeze(state, group, &clock);
                Answer::Done
            }
        }
    }

    /// "Level 3; P, all registers and the running count 0, the reset's own cycles dropped; every record zero; size and
    /// v1p1 from its fields." No record was made since: the next count is unknown. "A reset ends a halt" (document 02, Five), and
    /// BRBTS_EL1 is one of all the registers (Six).
    fn reset(&self, state: &mut State, room: &mut [u64], size: usize, v1p1: bool) {
        *state = State {
            level: Level::EL3,
            size,
            v1p1,
            platform: Platform::default(),
            cr1: 0,
            cr2: 0,
            fcr: 0,
            count: 0,
            unknown: true,
            halted: false,
            time: 0,
            start: self.start_after_reset(state),
        };
        room::clear(room, size);
    }

    // ---------------------------------------------------------------------------------------------------------------
    // Refusal numbers, in order of checking: 7, 2, 3, 4, 8, 5, 6

    fn accept(&self, state: &[u64], room_numbers: usize, numbers: [u64; 6]) -> Result<(State, Operation), Refusal> {
        let [code, _, fields @ ..] = numbers;
        let state = self.sound(state).ok_or(Refusal::NotSound)?;
        if code > self.last_code() {
            return Err(Refusal::UnknownCode);
        }
        if state.size == 0 && code != 0 {
            return Err(Refusal::NotReset);
        }
        let operation = self.operation(code, fields).ok_or(Refusal::OutsideList)?;
        if self.wrongly_halted(&state, &operation) {
            return Err(Refusal::Halted);
        }
        if !self.permits(&state, &operation) {
            return Err(Refusal::NotPermitted);
        }
        if room_numbers < self.room_needed(&state, &operation) {
            return Err(Refusal::RoomTooShort);
        }
        Ok((state, operation))
    }

    /// 2: a code above this one is unknown.
    fn last_code(&self) -> u64 {
        LAST_CODE
    }

    /// 7: the state in these numbers, none where it is not sound.
    fn sound(&self, numbers: &[u64]) -> Option<State> {
        let &[level, size, v1p1, platform, cr1, cr2, fcr, count, unknown, halted, time, start, ..] = numbers else {
            return None;
        };
        let size = if size == 0 { 0 } else { buffer_size(size)? };
        let state = State {
            level: Level::from_number(level)?,
            size,
            v1p1: flag(v1p1)?,
            platform: Platform::from_number(platform)?,
            cr1: (cr1 & !CONTROL_MASK == 0).then_some(cr1)?,
            cr2: (cr2 & !CONTROL_MASK == 0).then_some(cr2)?,
            fcr: (fcr & !FILTER_MASK == 0).then_some(fcr)?,
            count: (count <= count::LIMIT).then_some(count)?,
            unknown: flag(unknown)?,
            halted: flag(halted)?,
            time,
            start: self.sound_start(size, start)?,
        };
        self.can_be_entered(state.platform, state.level).then_some(state)
    }

    /// The start (document 02, Seven): a place that the size has; before a reset, where there is none, 0 alone.
    fn sound_start(&self, size: usize, start: u64) -> Option<usize> {
        let sound = if size == 0 { start == 0 } else { start < size as u64 };
        sound.then_some(start as usize)
    }

    /// Level 2 is there where EL2 is enabled, level 1 unless TGE and EL2 is enabled (refusals 7 and 5).
    fn can_be_entered(&self, platform: Platform, level: Level) -> bool {
        match level {
            Level::EL1 => !(platform.tge() && platform.el2_enabled()),
            Level::EL2 => platform.el2_enabled(),
            Level::EL0 | Level::EL3 => true,
        }
    }

    /// 4: the operation of this code and these fields, none where one of its own fields is outside its list.
    fn operation(&self, code: u64, [a, b, c, d]: [u64; 4]) -> Option<Operation> {
        let operation = match code {
            0 => Operation::Reset { size: buffer_size(a)?, v1p1: flag(b)? },
            1 => {
                let kind = BranchType::from_number(a)?;
                Operation::Branch { kind, mispredicted: flag(b)?, source: c, target: d }
            }
            2 => {
                let kind = exception_type(a)?;
                Operation::Exception { kind, to: Level::from_number(b)?, source: c, target: d }
            }
            3 => {
                let to = Level::from_number(a)?;
                Operation::Return { to, mispredicted: flag(b)?, source: c, target: d }
            }
            4 => Operation::Platform(Platform::from_number(a)?),
            5 => Operation::Read(Register::from_number(a)?),
            6 => Operation::Write(Register::from_number(a)?, b),
            7 => Operation::InvalidateAll,
            8 => Operation::Halt { source: a },
            9 => Operation::Resume { target: a, to: Level::from_number(b)? },
            10 => {
                let clock = Clock { physical: b, virtual_offset: c, guest_offset: d };
                Operation::Freeze { group: Group::from_number(a)?, clock }
            }
            _ => return None,
        };
        Some(operation)
    }

    /// 8 (document 02, Five): "halted, for codes 1, 2, 3 and 8; not halted, for 9". The other codes are taken either way.
    fn wrongly_halted(&self, state: &State, operation: &Operation) -> bool {
        match operation {
            Operation::Branch { .. }
            | Operation::Exception { .. }
            | Operation::Return { .. }
            | Operation::Halt { .. } => state.halted,
            Operation::Resume { .. } => !state.halted,
            _ => false,
        }
    }

    /// 5: whether the level permits the operation. Of a resume only the two rules on targets 2 and 1 are asked: it may go up.
    fn permits(&self, state: &State, operation: &Operation) -> bool {
        match *operation {
            Operation::Exception { to, .. } => {
                to >= state.level && to != Level::EL0 && self.can_be_entered(state.platform, to)
            }
            Operation::Return { to, .. } => {
                state.level != Level::EL0 && to <= state.level && self.can_be_entered(state.platform, to)
            }
            Operation::Resume { to, .. } => self.can_be_entered(state.platform, to),
            Operation::Platform(_) => state.level == Level::EL3,
            _ => true,
        }
    }

    /// 6: "three 64-bit numbers a record, for the size after the operation".
    fn room_needed(&self, state: &State, operation: &Operation) -> usize {
        match *operation {
            Operation::Reset { size, .. } => room::needed(size),
            _ => room::needed(state.size),
        }
    }

    // ---------------------------------------------------------------------------------------------------------------
    // Where recording is prohibited

    /// A side of an event, or where an operation begins: Debug state is prohibited whatever the level is (document 02, Five).
    fn prohibited_side(&self, state: &State, side: Side) -> bool {
        match side {
            Side::Level(level) => self.prohibited(state, level),
            Side::DebugState => true,
        }
    }

    /// Where an operation begins: at the current level, or in Debug state while the processor is halted.
    fn begins(&self, state: &State) -> Side {
        if state.halted {
            Side::DebugState
        } else {
            Side::Level(state.level)
        }
    }

    fn prohibited(&self, state: &State, level: Level) -> bool {
        if level == Level::EL3 {
            return !state.records_el3();
        }
        let platform = state.platform;
        let by_el3 = match platform.sbrbe() {
            0 => true,
            1 => !platform.ns(),
            _ => false,
        };
        by_el3 || !self.enabled_below_el3(state, level)
    }

    /// The control of a level below EL3: "a 0 prohibits".
    fn enabled_below_el3(&self, state: &State, level: Level) -> bool {
        match level {
            Level::EL0 if state.platform.tge() && state.platform.el2_enabled() => bit(state.cr2, 0),
            Level::EL0 => bit(state.cr1, 0),
            Level::EL1 => bit(state.cr1, 1),
            Level::EL2 | Level::EL3 => bit(state.cr2, 1),
        }
    }

    // ---------------------------------------------------------------------------------------------------------------
    // Which events become records

    /// An accepted event: its record, if it becomes one, and the move to its other side.
    fn happen(&self, state: &mut State, room: &mut [u64], event: Event) {
        if let Some(record) = self.recorded(state, &event) {
            self.push(state, room, record);
            self.restart_count(state);
        }
        self.enter(state, event.to);
    }

    /// The record that an event becomes, if it becomes one.
    fn recorded(&self, state: &State, event: &Event) -> Option<Record> {
        self.shape(state, event).map(|shape| self.record(state, event, shape))
    }

    /// The move to a level, or to Debug state, in which the level stays as it is.
    fn enter(&self, state: &mut State, side: Side) {
        match side {
            Side::Level(level) => (state.level, state.halted) = (level, false),
            Side::DebugState => state.halted = true,
        }
    }

    /// Which sides the event's record shows; none where it becomes no record.
    fn shape(&self, state: &State, event: &Event) -> Option<Shape> {
        if state.paused() || !self.wanted(state, event) {
            return None;
        }
        match (self.prohibited_side(state, event.from), self.prohibited_side(state, event.to)) {
            (true, true) => None,
            (true, false) => Some(Shape::HalfTarget),
            (false, true) => Some(Shape::HalfSource),
            (false, false) => Some(Shape::Full),
        }
    }

    /// Whether the filter or the control lets an event of this cause become a record.
    fn wanted(&self, state: &State, event: &Event) -> bool {
        match event.cause {
            Cause::Branch(kind) => self.chosen(state.fcr, kind),
            Cause::Exception(_) => self.controlled(state, self.exception_control(event), 23),
            Cause::Return => self.controlled(state, self.return_control(event), 22),
            Cause::Halt | Cause::Resume => self.debug_wanted(state, event),
        }
    }

    /// "The branch filter does not touch either" (document 02, Five), and no control is named for a halt or a resume.
    fn debug_wanted(&self, _: &State, _: &Event) -> bool {
        true
    }

    /// "Recorded exactly when the type's filter bit differs from EnI (bit 16)."
    fn chosen(&self, fcr: u64, kind: BranchType) -> bool {
        bit(fcr, kind.filter_bit()) != bit(fcr, 16)
    }

    /// "The control is by target level for exceptions".
    fn exception_control(&self, event: &Event) -> Side {
        event.to
    }

    /// "By the level left for returns".
    fn return_control(&self, event: &Event) -> Side {
        event.from
    }

    /// The control of exceptions or returns by a level. No exception goes to EL0 and no return leaves it; none of them goes to
    /// Debug state or leaves it.
    fn controlled(&self, state: &State, side: Side, control: u32) -> bool {
        match side {
            Side::Level(Level::EL0) | Side::DebugState => false,
            Side::Level(Level::EL1) => bit(state.cr1, control),
            Side::Level(Level::EL2) => bit(state.cr2, control),
            Side::Level(Level::EL3) => state.records_el3(),
        }
    }

    /// The new record. The running count has this event's cycles already.
    fn record(&self, state: &State, event: &Event, shape: Shape) -> Record {
        let unknown = self.count_unknown(state);
        let cc = if unknown { 0 } else { self.encode(state.count) };
        let inf = u64::from(unknown) << 46
            | cc << 32
            | event.cause.number() << 8
            | self.shown_level(event, shape) << 6
            | u64::from(self.shown_misprediction(state, event, shape)) << 5
            | shape as u64;
        [inf, self.shown_source(event, shape), self.shown_target(event, shape)]
    }

    fn shown_level(&self, event: &Event, shape: Shape) -> u64 {
        if shape.has_target() {
            event.to.number()
        } else {
            0
        }
    }

    fn shown_misprediction(&self, state: &State, event: &Event, shape: Shape) -> bool {
        event.mispredicted && shape.has_source() && state.shows_misprediction()
    }

    fn shown_source(&self, event: &Event, shape: Shape) -> u64 {
        if shape.has_source() {
            event.source
        } else {
            0
        }
    }

    fn shown_target(&self, event: &Event, shape: Shape) -> u64 {
        if shape.has_target() {
            event.target
        } else {
            0
        }
    }

    // ---------------------------------------------------------------------------------------------------------------
    // The round buffer (document 02, Seven), which replaces document 01's places in the room

    /// Where a record stands: record 0 at the start, the others behind it, from place 0 on again where the size ends.
    fn place(&self, size: usize, start: usize, record: usize) -> usize {
        if start + record < size {
            start + record
        } else {
            start + record - size
        }
    }

    /// Where a new record goes: one place below the start, and to the last place from place 0.
    fn new_place(&self, size: usize, start: usize) -> usize {
        if start == 0 {
            size - 1
        } else {
            start - 1
        }
    }

    /// A new record: its place is the new start, so that each other record's number is one more. The oldest of a full buffer
    /// stood there. Nothing else is written, and nothing moves.
    fn push(&self, state: &mut State, room: &mut [u64], record: Record) {
        let place = self.new_place(state.size, state.start);
        room::write(room, place, record);
        state.start = place;
    }

    /// The start after an accepted reset, by the state before it.
    fn start_after_reset(&self, _: &State) -> usize {
        0
    }

    /// The start after a BRB IALL: 0 where it was performed, and else what it was.
    fn start_after_iall(&self, state: &State, outcome: Outcome) -> usize {
        if outcome == Outcome::Performed {
            0
        } else {
            state.start
        }
    }

    // ---------------------------------------------------------------------------------------------------------------
    // Cycles

    /// The cycles of an accepted operation, not a reset, and the first of the occasions.
    fn pass(&self, state: &mut State, cycles: u64) {
        state.count_on(cycles);
        state.unknown |= self.began_prohibited(state);
    }

    /// It "began at a prohibited level", by the state before it; "while halted the level counts as prohibited" (document 02,
    /// Five), for the resume too. A halt begins at its level.
    fn began_prohibited(&self, state: &State) -> bool {
        self.prohibited_side(state, self.begins(state))
    }

    /// The next two occasions: a write that "turned counting on", or that "cleared PAUSED from 1".
    fn write_is_occasion(&self, before: &State, after: &State) -> bool {
        let counting_on = after.counting() && !before.counting();
        let paused_cleared = before.paused() && !after.paused();
        counting_on || paused_cleared
    }

    /// The last occasion (document 02, request One): "an IALL that is performed is an occasion, a trapped or undefined one
    /// is not." One that began at a prohibited level is the first of the occasions all the same.
    fn iall_is_occasion(&self, outcome: Outcome) -> bool {
        outcome == Outcome::Performed
    }

    /// Whether a record made now shows its count as unknown.
    fn count_unknown(&self, state: &State) -> bool {
        state.unknown || !state.counting()
    }

    /// "A record takes it, then it restarts from 0", and the occasions begin anew.
    fn restart_count(&self, state: &mut State) {
        state.count = 0;
        state.unknown = false;
    }

    fn encode(&self, count: u64) -> u64 {
        count::encode(count)
    }

    // ---------------------------------------------------------------------------------------------------------------
    // Freezes (document 02, Six)

    /// An accepted freeze, which makes no record and is no occasion by itself. Where it does not happen the old time stays
    /// (`docs/DECISIONS.md`, point 58).
    fn freeze(&self, state: &mut State, group: Group, clock: &Clock) {
        if self.freezes(state, group) {
            let time = self.time(state, clock);
            self.frozen(state, time);
        }
    }

    /// Whether it happens: its group asks for it, the side that it begins at is not prohibited, as Debug state always is
    /// (`docs/DECISIONS.md`, point 57), and nothing has paused recording before it.
    fn freezes(&self, state: &State, group: Group) -> bool {
        self.freeze_asked(state, group) && !self.prohibited_side(state, self.begins(state)) && !state.paused()
    }

    /// Bit 8, FZP, of the group's register asks for it.
    fn freeze_asked(&self, state: &State, group: Group) -> bool {
        bit(self.group_control(state, group), 8)
    }

    /// The register that governs a group.
    fn group_control(&self, state: &State, group: Group) -> u64 {
        match group {
            Group::Zero => state.cr1,
            Group::One => state.cr2,
        }
    }

    /// The time that a freeze keeps, by the TS that decides; 0 where both are 0.
    fn time(&self, state: &State, clock: &Clock) -> u64 {
        match self.deciding_ts(state) {
            1 => self.difference(clock.physical, clock.virtual_offset),
            2 => self.difference(clock.physical, clock.guest_offset),
            3 => clock.physical,
            _ => 0,
        }
    }

    /// BRBCR_EL2's TS goes first, whatever the group and the level are; BRBCR_EL1's is asked where it is 0.
    fn deciding_ts(&self, state: &State) -> u64 {
        match ts(state.cr2) {
            0 => ts(state.cr1),
            chosen => chosen,
        }
    }

    /// A count less an offset; where the offset is above the count, 2^64 is added ("Freezes" in `docs/MANUAL.md`).
    fn difference(&self, count: u64, offset: u64) -> u64 {
        let added = if offset > count { 1u128 << 64 } else { 0 };
        (u128::from(count) + added - u128::from(offset)) as u64
    }

    /// What a freeze sets: PAUSED, and BRBTS_EL1 to the time.
    fn frozen(&self, state: &mut State, time: u64) {
        state.fcr |= PAUSED;
        state.time = time;
    }

    // ---------------------------------------------------------------------------------------------------------------
    // Access outcomes

    fn outcome(&self, state: &State, access: Access) -> Outcome {
        if state.level == Level::EL0 || self.never_written(access) || self.hidden(state, access) {
            Outcome::Undefined
        } else if self.traps_to_el2(state, access) {
            Outcome::Trap2
        } else if self.traps_to_el3(state) {
            Outcome::Trap3
        } else {
            Outcome::Performed
        }
    }

    /// "Writing 0 or a record register: UNDEFINED." BRBTS_EL1 is read only too (document 02, Six).
    fn never_written(&self, access: Access) -> bool {
        matches!(access, Access::Write(Register::Idr0 | Register::Ts | Register::Record { .. }))
    }

    /// "Register 2 at EL1: UNDEFINED."
    fn hidden(&self, state: &State, access: Access) -> bool {
        state.level == Level::EL1 && access.register() == Some(Register::Cr2)
    }

    /// "At EL1, if EL2 is enabled, FGTEn is 1 and the matching n-bit is 0".
    fn traps_to_el2(&self, state: &State, access: Access) -> bool {
        let platform = state.platform;
        state.level == Level::EL1 && platform.el2_enabled() && platform.fgten() && !self.n_bit(platform, access)
    }

    /// The n-bit that matches an access. That of the records, nBRBDATA, is BRBTS_EL1's too (document 02, Six).
    fn n_bit(&self, platform: Platform, access: Access) -> bool {
        match (access.register(), access) {
            (None, _) => platform.n_brbiall(),
            (Some(Register::Idr0), _) => platform.n_brbidr(),
            (Some(Register::Ts | Register::Record { .. }), _) => platform.n_brbdata_read(),
            (Some(_), Access::Write(_)) => platform.n_brbctl_write(),
            (Some(_), _) => platform.n_brbctl_read(),
        }
    }

    /// "At EL1 and EL2: trap to EL3 if NS 0 and SBRBE is not 3, or NS 1 and SBRBE is 0 or 2."
    fn traps_to_el3(&self, state: &State) -> bool {
        let trapped = match (state.platform.ns(), state.platform.sbrbe()) {
            (false, sbrbe) => sbrbe != 3,
            (true, sbrbe) => matches!(sbrbe, 0 | 2),
        };
        matches!(state.level, Level::EL1 | Level::EL2) && trapped
    }

    /// "At EL2 with E2H 1, register 1 means register 2."
    fn meant(&self, state: &State, register: Register) -> Register {
        match register {
            Register::Cr1 if state.level == Level::EL2 && state.platform.e2h() => Register::Cr2,
            _ => register,
        }
    }

    /// What a performed read reads.
    fn read(&self, state: &State, room: &[u64], register: Register) -> u64 {
        match register {
            Register::Idr0 => 0x5000 + state.size as u64,
            Register::Cr1 => state.cr1,
            Register::Cr2 => state.cr2,
            Register::Fcr => state.fcr,
            Register::Ts => state.time,
            Register::Record { part, m } => self.shown_record(state, m).map_or(0, |record| {
                let place = self.place(state.size, state.start, record);
                room::number(room, place, part)
            }),
        }
    }

    /// "A record read shows number m + 32 × BANK, or 0 if that is not below the size."
    fn shown_record(&self, state: &State, m: usize) -> Option<usize> {
        let record = m + 32 * state.bank();
        (record < state.size).then_some(record)
    }

    /// A performed write. The registers that are never written do not come here.
    fn write(&self, state: &mut State, register: Register, value: u64) {
        let before = *state;
        match register {
            Register::Cr1 => state.cr1 = self.kept(register, value),
            Register::Cr2 => state.cr2 = self.kept(register, value),
            Register::Fcr => state.fcr = self.kept(register, value),
            Register::Idr0 | Register::Ts | Register::Record { .. } => {}
        }
        state.unknown |= self.write_is_occasion(&before, state);
    }

    /// "Writes keep only these bits".
    fn kept(&self, register: Register, value: u64) -> u64 {
        value & if register == Register::Fcr { FILTER_MASK } else { CONTROL_MASK }
    }

    /// A BRB IALL, which is an occasion where it is performed.
    fn iall(&self, state: &mut State, room: &mut [u64]) -> Answer {
        let outcome = self.outcome(state, Access::InvalidateAll);
        state.unknown |= self.iall_is_occasion(outcome);
        state.start = self.start_after_iall(state, outcome);
        outcome.or_else(|| {
            self.invalidate_all(state, room);
            Answer::Done
        })
    }

    /// "BRB IALL sets every record to zero and lets the count run on." That it is an occasion, and what becomes of the start,
    /// are rules of their own.
    fn invalidate_all(&self, state: &mut State, room: &mut [u64]) {
        room::clear(room, state.size);
    }

    // ---------------------------------------------------------------------------------------------------------------
    // The bank view

    /// What the bank shows as record register `m`, or 0 where that record is not below the size.
    fn bank_shows(&self, room: &[u64], asked: Asked, part: Part) -> Result<u64, Refusal> {
        if let Some(refusal) = self.bank_refusal(room.len(), asked) {
            return Err(refusal);
        }
        let [size, start, record] = [asked.size, asked.start, asked.record()].map(|number| number as usize);
        if record >= size {
            return Ok(0);
        }
        Ok(room::number(room, self.bank_place(size, start, record), part))
    }

    /// What refuses to look: size, bank and m are judged first, then the start by the size, then the room by the size.
    fn bank_refusal(&self, room_numbers: usize, asked: Asked) -> Option<Refusal> {
        if self.bank_outside_list(asked) {
            Some(Refusal::OutsideList)
        } else if self.bank_start_unsound(asked) {
            Some(Refusal::NotSound)
        } else if self.bank_room_too_short(room_numbers, asked) {
            Some(Refusal::RoomTooShort)
        } else {
            None
        }
    }

    /// "A size outside 8, 16, 32 and 64, a BANK above 3 or an m above 31".
    fn bank_outside_list(&self, asked: Asked) -> bool {
        buffer_size(asked.size).is_none() || asked.bank > 3 || asked.m > 31
    }

    /// The size is one of the four here, so that there is a place for record 0 where the start is below it.
    fn bank_start_unsound(&self, asked: Asked) -> bool {
        asked.start >= asked.size
    }

    fn bank_room_too_short(&self, room_numbers: usize, asked: Asked) -> bool {
        room_numbers < room::needed(asked.size as usize)
    }

    /// A record stands where a read finds it.
    fn bank_place(&self, size: usize, start: usize, record: usize) -> usize {
        self.place(size, start, record)
    }
}
