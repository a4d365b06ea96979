use crate::{Library, Modelled};
use model::Counts;

/// What is answered of an encoding or of a run of them: a refusal or 0, the smallest, the largest, and whether there is an
/// upper end.
pub type Numbers = [u64; 4];

/// Something that decodes an encoding, and that adds up a run of them.
pub trait Counting {
    fn name(&self) -> &str;
    fn decode(&self, cc: u64) -> Numbers;
    fn sum(&self, run: &[u64]) -> Numbers;
}

impl Counting for Library {
    fn name(&self) -> &str {
        "library"
    }

    fn decode(&self, cc: u64) -> Numbers {
        numbers(brb::count_decode(cc))
    }

    fn sum(&self, run: &[u64]) -> Numbers {
        numbers(brb::count_sum(run))
    }
}

fn numbers(spread: brb::Spread) -> Numbers {
    [spread.number, spread.low, spread.high, spread.bounded]
}

impl<R: Counts> Counting for Modelled<R> {
    fn name(&self) -> &str {
        "model"
    }

    fn decode(&self, cc: u64) -> Numbers {
        self.0.numbers(self.0.decode(cc))
    }

    fn sum(&self, run: &[u64]) -> Numbers {
        self.0.numbers(self.0.sum(run))
    }
}
