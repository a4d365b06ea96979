use crate::engine::numbered;
use crate::{Engine, Library, Modelled};
use model::Batches;

/// An engine that takes a run of recorded operations in one call, with a lent place for their answers.
pub trait Batching: Engine {
    fn batch(&self, state: &mut [u64], room: &mut [u64], bytes: &[u8], answers: &mut [u64]) -> (u64, u64);
}

impl Batching for Library {
    fn batch(&self, state: &mut [u64], room: &mut [u64], bytes: &[u8], answers: &mut [u64]) -> (u64, u64) {
        let answer = brb::batch(state, room, bytes, answers);
        (answer.number, answer.value)
    }
}

impl<R: Batches> Batching for Modelled<R> {
    fn batch(&self, state: &mut [u64], room: &mut [u64], bytes: &[u8], answers: &mut [u64]) -> (u64, u64) {
        numbered(self.0.batch(state, room, bytes, answers))
    }
}
