//! Random runs in one call, one after another, until two engines disagree or enough were tried.

use crate::batch::ends::Ends;
use crate::batch::{make, Batch, Batching, Classes};
use crate::run::Disagreement;
use crate::shrink::shrink;
use crate::{Random, Shares};
use model::{Batches, Document01};

/// So many rounds of batches. Answers how many batches there were, and how many operations they answered.
pub fn batches(
    engines: [&dyn Batching; 2],
    random: &mut Random,
    rounds: usize,
    classes: &mut Classes,
    shares: &mut Shares,
) -> Result<(u64, u64), Disagreement> {
    let ends = Ends::new(random);
    let (mut batches, mut agreed) = (0, 0);
    for round in 0..rounds {
        for (batch, reason) in make::round(random, &ends, round) {
            match batch.compare(engines) {
                Ok(((number, operations), singles)) => {
                    agreed += operations;
                    classes.note(&batch, number, &singles);
                }
                Err(_) => return Err(disagreement(engines, batch, agreed)),
            }
            if let Some(reason) = reason {
                shares.note_unsound(reason);
            }
            batches += 1;
        }
    }
    Ok((batches, agreed))
}

fn disagreement(engines: [&dyn Batching; 2], batch: Batch, after: u64) -> Disagreement {
    let shrunk = shrink(batch, |simpler| simpler.compare(engines).is_err());
    let how = shrunk.compare(engines).err().unwrap_or_default();
    let operations = Document01.answered_operations(&shrunk.bytes);
    Disagreement { after, operations, case: shrunk.to_string(), how }
}
