//! Random recordings and damage, one after another, until two engines disagree or enough were tried.

use crate::engine::Lent;
use crate::generate;
use crate::recording::damage::{self, Damaged};
use crate::recording::{make, Answered, Classes, Reading, Recorded, Recording, Written};
use crate::run::Disagreement;
use crate::shrink::shrink;
use crate::{Call, Case, Engine, Random, Sequence};
use model::{Document01, Recordings, LAST_CODE};

/// The room of whole recordings: that of 64 records and some more.
const ROOM: usize = 200;
/// How many operations are stepped from a damaged one on.
const FOLLOWED: usize = 3;

/// Operations written at any position of lent bytes, so many.
pub fn writings(
    engines: [&dyn Engine; 2],
    random: &mut Random,
    operations: u64,
    classes: &mut Classes,
) -> Result<u64, Disagreement> {
    for after in 0..operations {
        let written = writing(random);
        match written.compare(engines) {
            Ok(((number, _), _)) => classes.note_written(written.call.code(), number),
            Err(_) => return Err(disagreement(written, after, |written| written.compare(engines).err())),
        }
    }
    Ok(operations)
}

/// An operation and bytes that mostly have room for it, often not one more.
fn writing(random: &mut Random) -> Written {
    let mut call = make::operation(random);
    let needed = Document01.operation_bytes(call.0).map_or(0, |bytes| bytes.len());
    let usual = random.below(12) as usize;
    let length = match random.below(4) {
        0 => usual + needed,
        1 => (usual + needed).saturating_sub(1),
        2 => random.below((usual + needed) as u64 + 1) as usize,
        _ => usual + needed + random.below(12) as usize,
    };
    if random.percent(10) {
        call.0[0] = LAST_CODE + 1 + random.of_length(63);
    }
    let bytes = (0..length).map(|_| random.number() as u8).collect();
    Written { at: make::position(random, length, usual), bytes, call }
}

/// Operations on any state and room, at any position of bytes that are sound or not, so many.
pub fn readings(
    engines: [&dyn Engine; 2],
    random: &mut Random,
    operations: u64,
    classes: &mut Classes,
) -> Result<u64, Disagreement> {
    for after in 0..operations {
        compared(engines, &reading(random), classes, after)?;
    }
    Ok(operations)
}

/// One operation between other bytes, its numbers sound or not, on any state and room.
fn reading(random: &mut Random) -> Recorded {
    let (single, _) = generate::single(random);
    let numbers = if random.percent(80) { single.call.0 } else { make::operation(random).0 };
    let own = 2 + model::own_fields(numbers[0]).unwrap_or(0);
    let spoiled = random.percent(30).then(|| random.below(own as u64) as usize);
    let usual = random.below(12) as usize;
    let mut bytes: Vec<u8> = (0..usual).map(|_| random.number() as u8).collect();
    for (place, &number) in numbers[..own].iter().enumerate() {
        let own = Document01.number_bytes(number);
        let forms = if spoiled == Some(place) { damage::forms(&own, random) } else { vec![own] };
        bytes.extend(&forms[random.below(forms.len() as u64) as usize]);
    }
    match random.below(8) {
        0 => bytes.truncate(random.below(bytes.len() as u64 + 1) as usize),
        1 | 2 => bytes.extend((0..random.below(12)).map(|_| random.number() as u8)),
        _ => {}
    }
    let place = if random.percent(50) { 6 } else { random.below(9) as usize };
    let at = make::position(random, bytes.len(), usual);
    Recorded { state: single.state, room: single.room, place, bytes, at }
}

/// Whole recordings, so many, and what each damage makes of them. Answers how many operations were compared.
pub fn damaged(
    engines: [&dyn Engine; 2],
    random: &mut Random,
    recordings: usize,
    classes: &mut Classes,
) -> Result<u64, Disagreement> {
    let mut agreed = 0;
    for _ in 0..recordings {
        let length = 1 + random.below(24) as usize;
        let recording = Recording::random(random, ROOM, length);
        let mut other = random.clone();
        let one_by_one = damage::cut(&recording)
            .chain(damage::changed(&recording, random))
            .chain(damage::malformed(&recording, &mut other));
        agreed += from_the_damage_on(engines, &recording, one_by_one, classes, agreed)?;
        for bytes in [damage::anywhere(&recording, random), damage::noise(random), recording.bytes.clone()] {
            let fresh = Sequence::fresh(ROOM);
            let recorded = Recorded { state: fresh.state, room: fresh.room, place: 6, bytes, at: 0 };
            agreed += followed(engines, recorded, usize::MAX, classes, agreed)?;
        }
    }
    Ok(agreed)
}

/// Steps each damaged recording from the operation in which the damage is, as the recording comes to it.
fn from_the_damage_on(
    engines: [&dyn Engine; 2],
    recording: &Recording,
    damaged: impl Iterator<Item = Damaged>,
    classes: &mut Classes,
    after: u64,
) -> Result<u64, Disagreement> {
    let lent = recording.lent(ROOM);
    let mut agreed = 0;
    for Damaged { bytes, first } in damaged {
        let operation = recording.operation_of(first);
        let at = recording.starts.get(operation).copied().unwrap_or(recording.bytes.len());
        let (state, room) = (lent[operation].state.clone(), lent[operation].room.clone());
        let recorded = Recorded { state, room, place: 6 + first % 3, bytes, at };
        agreed += followed(engines, recorded, FOLLOWED, classes, after + agreed)?;
    }
    Ok(agreed)
}

/// Steps along a recording, at most so many operations, until reading stops. Past its end one step is made as well.
fn followed(
    engines: [&dyn Engine; 2],
    mut recorded: Recorded,
    most: usize,
    classes: &mut Classes,
    after: u64,
) -> Result<u64, Disagreement> {
    let mut agreed = 0;
    for _ in 0..most {
        let (step, next, lent) = compared(engines, &recorded, classes, after + agreed)?;
        agreed += 1;
        if matches!(step, 7 | 1 | 2) {
            break;
        }
        recorded = Recorded { state: lent.state, room: lent.room, at: next as usize, ..recorded };
    }
    Ok(agreed)
}

/// One operation by both: the step's answer, the position that follows, and what is lent then.
fn compared(
    engines: [&dyn Engine; 2],
    recorded: &Recorded,
    classes: &mut Classes,
    after: u64,
) -> Result<(u64, u64, Lent), Disagreement> {
    let reading = Reading::of(&recorded.bytes, recorded.at);
    match recorded.compare(engines) {
        Ok(answered) => {
            let (read, step) = (answered.read.0, answered.step.0);
            assert!(read == 6 || read == reading.number(), "{recorded}: read {read}, by its bytes {reading:?}");
            assert!(read != 0 || written_again(engines[0], recorded, &answered), "{recorded}: not what is written");
            classes.note_read(read, step, reading, recorded.bytes.get(recorded.at).copied());
            Ok((step, answered.next, answered.lent))
        }
        Err(_) => Err(disagreement(recorded.clone(), after, |recorded| recorded.compare(engines).err())),
    }
}

/// Whether what was read, written again, is the same bytes.
fn written_again(engine: &dyn Engine, recorded: &Recorded, answered: &Answered) -> bool {
    let read = &recorded.bytes[recorded.at..answered.read.1 as usize];
    let mut written = vec![0; read.len()];
    let numbers: [u64; 6] = std::array::from_fn(|number| answered.place[number]);
    let answer = engine.recording_write(&mut written, 0, Call(numbers));
    answer == (0, read.len() as u64) && written == read
}

fn disagreement<C: Case>(case: C, after: u64, how: impl Fn(&C) -> Option<String>) -> Disagreement {
    let shrunk = shrink(case, |simpler| how(simpler).is_some());
    let how = how(&shrunk).unwrap_or_default();
    Disagreement { after, operations: 1, case: shrunk.to_string(), how }
}
