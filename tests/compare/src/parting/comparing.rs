use crate::{Engine, Library, Modelled};
use model::Comparisons;

/// What is answered of two recordings, by the names of `struct brb_parting`.
pub type Numbers = [u64; 9];

/// The names of the nine numbers, in their order.
pub const NAMES: [&str; 9] =
    ["number", "which", "at", "equal", "ends_first", "differing", "rest_of", "rest_at", "rest_length"];

/// An engine that tells where two recordings part, and hands back the rest of one of them as a part of it.
pub trait Comparing: Engine {
    fn compared<'r>(&self, first: &'r [u8], second: &'r [u8]) -> (Numbers, &'r [u8]);
}

impl Comparing for Library {
    fn compared<'r>(&self, first: &'r [u8], second: &'r [u8]) -> (Numbers, &'r [u8]) {
        let parting = brb::compare(first, second);
        let brb::Parting { number, which, at, equal, ends_first, differing, rest_of, rest_at, rest_length } = parting;
        let alike = [number, ends_first, differing] == [0; 3];
        assert_eq!(parting.is_equal(), alike, "{parting:?}");
        let numbers = [number, which, at, equal, ends_first, differing, rest_of, rest_at, rest_length];
        (numbers, parting.rest(first, second))
    }
}

impl<R: Comparisons> Comparing for Modelled<R> {
    fn compared<'r>(&self, first: &'r [u8], second: &'r [u8]) -> (Numbers, &'r [u8]) {
        let compared = self.0.compare(first, second);
        let numbers = self.0.nine_numbers(&compared);
        // A wrong model may name a part that is not there.
        let rest = compared.ok().and_then(|parting| parting.rest_of.of([first, second]).get(parting.rest));
        (numbers, rest.unwrap_or(&[]))
    }
}
