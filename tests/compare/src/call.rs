use model::{Document01, Operation, Rules};
use std::fmt;

/// One operation as six numbers: code, cycles and four fields.
#[derive(Clone, Copy, Debug, PartialEq, Eq)]
pub struct Call(pub [u64; 6]);

impl Call {
    pub fn code(&self) -> u64 {
        self.0[0]
    }

    pub fn cycles(&self) -> u64 {
        self.0[1]
    }

    /// Codes 1, 2 and 3, and halts and resumes, 8 and 9.
    pub fn is_event(&self) -> bool {
        matches!(self.code(), 1..=3 | 8 | 9)
    }

    /// The operation that it is, none where one of its own fields is outside its list.
    pub fn operation(&self) -> Option<Operation> {
        let [code, _, fields @ ..] = self.0;
        Document01.operation(code, fields)
    }

    /// How many of the six numbers belong to the operation; an unknown code has none but itself and cycles.
    fn own(&self) -> usize {
        2 + model::own_fields(self.code()).unwrap_or(0)
    }

    /// Operations in document 01's written form.
    pub fn sequence(text: &str) -> Vec<Call> {
        text.split('/').map(Call::parse).collect()
    }

    fn parse(text: &str) -> Call {
        let mut numbers = [0; 6];
        for (number, word) in numbers.iter_mut().zip(text.split_whitespace()) {
            *number = word.parse().expect("an operation is written in decimal numbers");
        }
        Call(numbers)
    }
}

/// Document 01's written form. Numbers beyond the operation's own fields stand in brackets, and only if one is not 0:
/// a disagreement that needs them says that somebody looked at them.
impl fmt::Display for Call {
    fn fmt(&self, f: &mut fmt::Formatter<'_>) -> fmt::Result {
        let (own, beyond) = self.0.split_at(self.own());
        let written: Vec<String> = own.iter().map(u64::to_string).collect();
        write!(f, "{}", written.join(" "))?;
        if beyond.iter().any(|&number| number != 0) {
            write!(f, " {beyond:?}")?;
        }
        Ok(())
    }
}
