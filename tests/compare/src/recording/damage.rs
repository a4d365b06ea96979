//! Damage to recordings: each byte cut and changed in several ways, and each number made malformed.

use crate::recording::Recording;
use crate::Random;
use model::LAST_CODE;

/// Damaged bytes, and the first byte that is not as it was.
#[derive(Clone, Debug)]
pub struct Damaged {
    pub bytes: Vec<u8>,
    pub first: usize,
}

/// A recording cut before each of its bytes, and at its end.
pub fn cut(recording: &Recording) -> impl Iterator<Item = Damaged> + '_ {
    (0..=recording.bytes.len()).map(|first| Damaged { bytes: recording.bytes[..first].to_vec(), first })
}

/// A recording with each byte changed in several ways, dropped, and with another before it.
pub fn changed<'r>(recording: &'r Recording, random: &'r mut Random) -> impl Iterator<Item = Damaged> + 'r {
    let bytes = &recording.bytes;
    (0..bytes.len()).flat_map(move |first| {
        let (byte, any) = (bytes[first], random.number() as u8);
        let others = [byte ^ 0x01, byte ^ 0x80, byte ^ 0xFF, byte ^ 1 << (any & 7), 0x00, 0x7F, 0x80, 0xFF, any];
        let changed = others.map(|other| replaced(bytes, first, 1, &[other]));
        changed.into_iter().chain([replaced(bytes, first, 1, &[]), replaced(bytes, first, 0, &[any])])
    })
}

/// A recording with each number in forms that are not its own.
pub fn malformed<'r>(recording: &'r Recording, random: &'r mut Random) -> impl Iterator<Item = Damaged> + 'r {
    recording.numbers().into_iter().flat_map(move |number| {
        let own = &recording.bytes[number.clone()];
        let forms = forms(own, random);
        forms.into_iter().map(move |form| replaced(&recording.bytes, number.start, number.len(), &form))
    })
}

/// Bytes that stand for no number, and the largest number, which has ten bytes.
pub fn forms(own: &[u8], random: &mut Random) -> Vec<Vec<u8>> {
    let with = |first: u8, length: usize, last: &[u8]| [&vec![first; length][..], last].concat();
    let continued = own.iter().map(|byte| byte | 0x80);
    let long = with(0x80 | random.number() as u8, 9, &[2 + random.below(0x7E) as u8]);
    vec![
        continued.clone().chain([0x00]).collect(),
        continued.clone().chain([0x80, 0x00]).collect(),
        vec![0x80, 0x00],
        with(0x80, 9, &[0x00]),
        with(0xFF, 9, &[0x00]),
        with(0xFF, 9, &[0x01]),
        with(0x80, 9, &[0x02]),
        with(0xFF, 9, &[0x02]),
        with(0xFF, 9, &[0x7F]),
        long,
        with(0xFF, 10, &[0x01]),
        with(0x80, 10, &[0x01]),
        with(0x80, 10, &[0x00]),
        with(0x80, 9, &[0x81, 0x00]),
        continued.chain([0x80; 10]).collect(),
    ]
}

/// Random damage in many places, and a random cut.
pub fn anywhere(recording: &Recording, random: &mut Random) -> Vec<u8> {
    let mut bytes = recording.bytes.clone();
    for _ in 0..1 + bytes.len() / 64 {
        let place = random.below(bytes.len().max(1) as u64) as usize;
        if let Some(byte) = bytes.get_mut(place) {
            *byte = random.number() as u8;
        }
    }
    bytes.truncate(random.below(2 * bytes.len() as u64 + 1) as usize);
    bytes
}

/// Random bytes, small ones more often.
pub fn noise(random: &mut Random) -> Vec<u8> {
    let small = random.below(101);
    let length = random.below(100);
    let byte =
        |random: &mut Random| if random.percent(small) { random.below(LAST_CODE + 2) } else { random.below(256) };
    (0..length).map(|_| byte(random) as u8).collect()
}

fn replaced(bytes: &[u8], first: usize, length: usize, by: &[u8]) -> Damaged {
    Damaged { bytes: [&bytes[..first], by, &bytes[first + length..]].concat(), first }
}
