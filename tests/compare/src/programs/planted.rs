//! Wrong models beside a program: it is run once on each case, and each wrong model is held against what it printed then.

use super::disagreement;
use crate::planted::check_found;
use crate::Case;
use std::process::Output;

/// A shrunk case is printed in at most so many characters.
const LONGEST: usize = 120;

/// Cases and what the program printed of each.
pub struct Seen<C>(Vec<(C, Output)>);

impl<C: Case> Seen<C> {
    pub fn new(cases: Vec<C>, run: impl Fn(&C) -> Output) -> Seen<C> {
        Seen(cases.into_iter().map(|case| (run(&case), case)).map(|(output, case)| (case, output)).collect())
    }

    /// The first case on which the program differs from a model, shrunk by running it again; none where they agree on all.
    pub fn found(
        &self,
        run: impl Fn(&C) -> Output,
        difference: impl Fn(&C, &Output) -> Option<String>,
    ) -> Option<String> {
        let (case, _) = self.0.iter().find(|(case, output)| difference(case, output).is_some())?;
        disagreement(case.clone(), |case| difference(case, &run(case)))
    }
}

/// Each error must be found, and its case must be short.
pub fn check(test: &str, found: impl Iterator<Item = (&'static str, Option<String>)>) {
    let case = |shrunk: &String| shrunk.lines().next().map_or(0, str::len);
    check_found(test, found, LONGEST, "characters", case);
}
