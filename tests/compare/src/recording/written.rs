use crate::recording::hex;
use crate::shrink::smaller;
use crate::{Call, Case, Engine};
use model::{Document01, Recordings};
use std::fmt;

/// One operation, written at a position of lent bytes.
#[derive(Clone, Debug, PartialEq, Eq)]
pub struct Written {
    pub bytes: Vec<u8>,
    pub at: usize,
    pub call: Call,
}

impl Written {
    /// What both engines answer and leave, or how they disagree.
    pub fn compare(&self, engines: [&dyn Engine; 2]) -> Result<((u64, u64), Vec<u8>), String> {
        let names = engines.map(|engine| engine.name());
        let [(left, bytes), (right, other)] = engines.map(|engine| {
            let mut bytes = self.bytes.clone();
            let answer = engine.recording_write(&mut bytes, self.at, self.call);
            (answer, bytes)
        });
        if left != right {
            return Err(format!("written: {} {left:?}, {} {right:?}", names[0], names[1]));
        }
        if bytes != other {
            return Err(format!("bytes: {} {}, {} {}", names[0], hex(&bytes), names[1], hex(&other)));
        }
        self.check_untouched(left, &bytes).map(|()| (left, bytes))
    }

    /// Bytes before and past what was written are as they were, and all of them where it was refused.
    fn check_untouched(&self, (number, value): (u64, u64), bytes: &[u8]) -> Result<(), String> {
        let written = if number == 0 { self.at..self.at + value as usize } else { 0..0 };
        let touched = (0..bytes.len()).find(|place| !written.contains(place) && bytes[*place] != self.bytes[*place]);
        touched.map_or(Ok(()), |place| Err(format!("byte {place} was written, which is outside the operation")))
    }

    /// Another with as many bytes fewer as its operation has.
    fn with_room_as_before(&self, other: &Written) -> Written {
        let needed = |call: Call| Document01.operation_bytes(call.0).map_or(0, |bytes| bytes.len());
        let fewer = needed(self.call).saturating_sub(needed(other.call));
        let bytes = self.bytes[..self.bytes.len().saturating_sub(fewer)].to_vec();
        Written { bytes, ..other.clone() }
    }
}

impl Case for Written {
    fn simpler(&self) -> Box<dyn Iterator<Item = Self> + '_> {
        let shorter = (0..self.bytes.len()).map(|length| Written { bytes: self.bytes[..length].to_vec(), ..*self });
        let earlier = smaller(self.at as u64).map(|at| Written { at: at as usize, ..self.clone() });
        let plainer = (0..6).rev().flat_map(move |field| {
            smaller(self.call.0[field]).flat_map(move |number| {
                let mut changed = self.clone();
                changed.call.0[field] = number;
                [self.with_room_as_before(&changed), changed]
            })
        });
        Box::new(shorter.chain(earlier).chain(plainer))
    }
}

impl fmt::Display for Written {
    fn fmt(&self, f: &mut fmt::Formatter<'_>) -> fmt::Result {
        write!(f, "{}  written at {} of {} bytes ({})", self.call, self.at, self.bytes.len(), hex(&self.bytes))
    }
}
