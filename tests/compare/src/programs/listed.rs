use super::{first_difference, message, with_chunks_dropped, Program, Way};
use crate::recording::hex;
use crate::Case;
use model::lines::Form;
use model::{Document01, Lines, Recordings};
use std::fmt;
use std::process::Output;

/// A bad operation is shrunk byte by byte up to here.
const LONGEST_OPERATION: usize = 60;

/// A recording for `list`, and the form of its lines.
#[derive(Clone, Debug, PartialEq, Eq)]
pub struct Listed {
    pub bytes: Vec<u8>,
    pub form: Form,
}

impl Listed {
    pub fn output(&self, program: &Program, way: &Way) -> Output {
        let options: &[&str] = match self.form {
            Form::Readable => &[],
            Form::Numbers => &["--numbers"],
        };
        program.run(options, &self.bytes, way)
    }

    /// How what the program printed differs from the model's lines. Of a bad number it must name the byte; it must say
    /// nothing where all is well.
    pub fn difference(&self, output: &Output, model: &dyn Lines) -> Option<String> {
        let listing = model.list(&self.bytes, self.form);
        let lines = first_difference(&output.stdout, listing.text.as_bytes());
        lines.or_else(|| message::difference(&output.stderr, "byte", listing.bad))
    }
}

/// The operations that can be read, each by itself; then the bytes of one that cannot, and what follows it.
pub(super) fn chunks_of(bytes: &[u8]) -> Vec<&[u8]> {
    let (mut chunks, mut at) = (Vec::new(), 0);
    while let Ok((_, next)) = Document01.read_operation(bytes, at) {
        chunks.push(&bytes[at..next]);
        at = next;
    }
    let (bad, rest) = bytes[at..].split_at((bytes.len() - at).min(LONGEST_OPERATION));
    chunks.extend(bad.chunks(1).chain([rest]).filter(|chunk| !chunk.is_empty()));
    chunks
}

impl Case for Listed {
    fn simpler(&self) -> Box<dyn Iterator<Item = Self> + '_> {
        let chunks = chunks_of(&self.bytes);
        let fewer: Vec<Vec<u8>> = match chunks[..] {
            [only] => zeroed(only).collect(),
            _ => with_chunks_dropped(&chunks),
        };
        Box::new(fewer.into_iter().map(|bytes| Listed { bytes, ..*self }))
    }
}

/// A single operation with one of its numbers 0.
fn zeroed(operation: &[u8]) -> impl Iterator<Item = Vec<u8>> + '_ {
    let numbers = Document01.read_operation(operation, 0).map_or([0; 6], |(numbers, _)| numbers);
    (1..6).filter(move |&place| numbers[place] != 0).filter_map(move |place| {
        let mut numbers = numbers;
        numbers[place] = 0;
        Document01.operation_bytes(numbers)
    })
}

impl fmt::Display for Listed {
    fn fmt(&self, f: &mut fmt::Formatter<'_>) -> fmt::Result {
        write!(f, "{}  ({:?})", hex(&self.bytes), self.form)
    }
}
