use super::{message, with_chunks_dropped, Program, Way};
use crate::recording::hex;
use crate::Case;
use model::Notation;
use std::fmt;
use std::process::Output;

/// So many bytes around a difference are shown.
const SHOWN: usize = 24;
/// So few lines are shrunk by their words.
const FEW_LINES: usize = 3;
/// A word of more bytes is shrunk by its parts.
const LONG_WORD: usize = 32;

/// A text for `pack`.
#[derive(Clone, Debug, PartialEq, Eq)]
pub struct Packed {
    pub text: Vec<u8>,
}

impl Packed {
    pub fn new(text: impl Into<Vec<u8>>) -> Packed {
        Packed { text: text.into() }
    }

    pub fn output(&self, program: &Program, way: &Way) -> Output {
        program.run(&[], &self.text, way)
    }

    /// How what the program wrote differs from the model's bytes. Of a wrong operation it must name the line; it must say
    /// nothing where all is well.
    pub fn difference(&self, output: &Output, model: &dyn Notation) -> Option<String> {
        let packed = model.pack(&self.text);
        let bytes = first_byte(&output.stdout, &packed.bytes);
        bytes.or_else(|| message::difference(&output.stderr, "line", packed.wrong))
    }

    fn lines(&self) -> Vec<&[u8]> {
        self.text.split_inclusive(|&byte| byte == b'\n').collect()
    }

    /// Its words, the parts of a very long one, and each byte between them.
    fn words(&self) -> Vec<&[u8]> {
        let words = self.text.chunk_by(|one, next| one.is_ascii_alphanumeric() && next.is_ascii_alphanumeric());
        words.flat_map(|word| word.chunks(LONG_WORD)).collect()
    }
}

fn first_byte(written: &[u8], expected: &[u8]) -> Option<String> {
    if written == expected {
        return None;
    }
    let place = written.iter().zip(expected).take_while(|(one, other)| one == other).count();
    let [written, expected] = [written, expected].map(|bytes| {
        let rest = &bytes[place..];
        format!("{} ({} bytes)", hex(&rest[..rest.len().min(SHOWN)]), bytes.len())
    });
    Some(format!("from byte {place} on: program {written}, model {expected}"))
}

impl Case for Packed {
    fn simpler(&self) -> Box<dyn Iterator<Item = Self> + '_> {
        let lines = self.lines();
        let words = if lines.len() > FEW_LINES { Vec::new() } else { with_chunks_dropped(&self.words()) };
        Box::new(with_chunks_dropped(&lines).into_iter().chain(words).map(Packed::new))
    }
}

impl fmt::Display for Packed {
    fn fmt(&self, f: &mut fmt::Formatter<'_>) -> fmt::Result {
        write!(f, "\"{}\"", self.text.escape_ascii())
    }
}
