use super::listed::chunks_of;
use super::{first_difference, message, with_chunks_dropped, By, Comparer, Given, TRIED};
use crate::parting::Pair;
use crate::recording::hex;
use crate::shrink::parts;
use crate::Case;
use model::findings::{Bad, Finding};
use model::lines::Form;
use model::Findings;
use std::fmt;
use std::process::Output;

/// Of a longer recording so many bytes are printed.
const PRINTED: usize = 24;

/// Two recordings for `compare`, and the form of what it prints.
#[derive(Clone, Debug, PartialEq, Eq)]
pub struct Compared {
    pub pair: Pair,
    pub form: Form,
}

impl Compared {
    pub fn output(&self, program: &Comparer, by: By, given: &Given) -> Output {
        let options: &[&str] = match self.form {
            Form::Readable => &[],
            Form::Numbers => &["--numbers"],
        };
        program.run(by, options, [&self.pair.first, &self.pair.second], given)
    }

    /// How what the program printed of the two, which are named so, differs from the model's lines. Of one that cannot be read
    /// on it must name file, byte and operation; it must say nothing where all is well.
    pub fn difference(&self, output: &Output, names: &[String; 2], model: &dyn Findings) -> Option<String> {
        let Finding { text, bad, .. } = model.found(&self.pair.first, &self.pair.second, self.form);
        let lines = first_difference(&output.stdout, text.as_bytes());
        lines.or_else(|| said(&output.stderr, bad, names))
    }

    /// The same, and how the launcher's status differs from the model's.
    pub fn difference_by_launcher(&self, output: &Output, names: &[String; 2], model: &dyn Findings) -> Option<String> {
        let wanted = model.found(&self.pair.first, &self.pair.second, self.form).status;
        self.difference(output, names, model).or_else(|| match output.status.code() {
            Some(status) if status == wanted => None,
            status => Some(format!("status: launcher {status:?}, model {wanted}")),
        })
    }
}

/// How a message differs from one that names what is bad, in the form `compare: FILE: byte N ..., operation M`.
fn said(errors: &[u8], bad: Option<Bad>, names: &[String; 2]) -> Option<String> {
    let Some(Bad { which, byte, operation }) = bad else { return message::difference(errors, "byte", None) };
    let message = String::from_utf8_lossy(errors);
    let start = format!("compare: {}: ", which.of(names.each_ref()));
    let places = message.strip_prefix(&start).filter(|rest| rest.lines().count() == 1);
    match places {
        Some(places) if message::names(places, "byte", byte) && message::names(places, "operation", operation) => None,
        _ => Some(format!("program says {message:?}, model names \"{start}byte {byte}, operation {operation}\"")),
    }
}

impl Case for Compared {
    fn simpler(&self) -> Box<dyn Iterator<Item = Self> + '_> {
        let Pair { first, second } = &self.pair;
        let [ones, others] = [chunks_of(first), chunks_of(second)];
        let mut fewer: Vec<Pair> = Vec::new();
        for part in parts(ones.len().max(others.len())).take(TRIED) {
            let without = |chunks: &[&[u8]]| {
                let [from, to] = [part.start, part.end].map(|place| place.min(chunks.len()));
                [&chunks[..from], &chunks[to..]].concat().concat()
            };
            fewer.push(Pair { first: without(&ones), second: without(&others) });
        }
        fewer.extend(with_chunks_dropped(&ones).into_iter().map(|first| Pair { first, second: second.clone() }));
        fewer.extend(with_chunks_dropped(&others).into_iter().map(|second| Pair { first: first.clone(), second }));
        Box::new(fewer.into_iter().filter(|pair| *pair != self.pair).map(|pair| Compared { pair, form: self.form }))
    }
}

impl fmt::Display for Compared {
    fn fmt(&self, f: &mut fmt::Formatter<'_>) -> fmt::Result {
        let written = |bytes: &[u8]| match bytes.len() {
            0 => "no bytes".into(),
            length if length > PRINTED => format!("{} … of {length} bytes", hex(&bytes[..PRINTED])),
            _ => hex(bytes),
        };
        write!(f, "{} beside {}  ({:?})", written(&self.pair.first), written(&self.pair.second), self.form)
    }
}
