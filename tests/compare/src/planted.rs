//! Wrong models, each with one planted error, and the search for each.

use crate::run::{self, Disagreement};
use crate::seed::{self, say};
use crate::{Engine, Library, Random, Shares};
use std::fmt::Display;

/// How many operations of each kind an error may hide from.
pub const OPERATIONS: u64 = 1_000_000;
/// A shrunk case has at most so many operations.
pub const LONGEST: usize = 12;
/// An error that shows no sooner than where eight records have gone round has a longer one.
pub const LONGEST_ROUND: usize = LONGEST + 9;
/// These tests are about the comparison itself: they repeat unless told otherwise.
pub const SEED: u64 = 1;

/// Wrong models, each by the words that say what is wrong and the rules that it changes, and the list of them, `PLANTED`.
#[macro_export]
macro_rules! planted_rules {
    ($(($words:literal, $name:ident { $($rule:tt)* }))*) => {
        $(
            struct $name;
            impl ::model::Rules for $name { $($rule)* }
            impl ::model::Recordings for $name {}
        )*
        const PLANTED: &[(&str, &dyn $crate::Engine)] = &[$(($words, &$crate::Modelled($name))),*];
    };
}

/// The first disagreement of the library with a wrong model: on sequences, or else on single calls.
pub fn found(wrong: &dyn Engine, seed: u64) -> Option<Disagreement> {
    let engines: [&dyn Engine; 2] = [&Library, wrong];
    let mut shares = Shares::default();
    let in_sequences = run::sequences(engines, &mut Random::new(seed), OPERATIONS, &mut shares).err();
    in_sequences.or_else(|| run::singles(engines, &mut Random::new(seed), OPERATIONS, &mut shares).err())
}

/// Fails where one of these is not found, or is not shrunk to so many operations at most.
pub fn check_each(test: &str, planted: &[(&str, &dyn Engine)], most: usize) {
    let seed = seed::of_test(test, || SEED);
    let found = planted.iter().map(|&(words, wrong)| (words, found(wrong, seed)));
    check_found(test, found, most, "operations", |disagreement| disagreement.operations);
}

/// The same of cases that are printed on a line: of so many characters at most.
pub fn check_lines<'w>(test: &str, found: impl Iterator<Item = (&'w str, Option<Disagreement>)>, most: usize) {
    check_found(test, found, most, "characters", |disagreement| disagreement.case.len());
}

/// The same of whatever was found of each error, by how much is left of it.
pub fn check_found<'w, D: Display>(
    test: &str,
    found: impl Iterator<Item = (&'w str, Option<D>)>,
    most: usize,
    unit: &str,
    left: impl Fn(&D) -> usize,
) {
    let (mut missed, mut longest, mut errors) = (Vec::new(), 0, 0);
    for (words, found) in found {
        errors += 1;
        let Some(found) = found else {
            missed.push(format!("{words}: not found"));
            continue;
        };
        println!("planted: {words}\n  {found}");
        longest = longest.max(left(&found));
        if left(&found) > most {
            missed.push(format!("{words}: shrunk to {} {unit} only", left(&found)));
        }
    }
    assert!(missed.is_empty(), "{missed:#?}");
    say(&format!("{test}: all {errors} found, shrunk to at most {longest} {unit}"));
}
