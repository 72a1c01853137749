//! Several mutants in one check. A function is proved from its own body and the contracts of what it calls, so edits in different functions
//! do not disturb each other, and the prover answers for each function.

use std::collections::BTreeMap;

use crate::mutants::Mutant;

/// What one check of several mutants says of one of them.
#[derive(Clone, Copy, Debug, PartialEq, Eq)]
pub enum Said {
    Refused,
    Proved,
    /// It calls a function that is not proved, and nothing is said of its own body.
    Nothing,
}

/// The next batch of those that wait: one a function. A mutant outside of all functions is alone.
pub fn next<'m>(waiting: &[&'m Mutant]) -> Vec<&'m Mutant> {
    let mut first: BTreeMap<&str, &'m Mutant> = BTreeMap::new();
    for mutant in waiting {
        match &mutant.function {
            Some(name) => _ = first.entry(name).or_insert(mutant),
            None => return vec![mutant],
        }
    }
    first.into_values().collect()
}

/// Words of an error that says only that an earlier one stands in the way.
const FOLLOWS: [&str; 2] = ["was not admitted", "which was rejected"];

/// What a check's log says of one function of a crate.
pub fn said(log: &str, name: &str, function: &str) -> Said {
    let start = format!("fn {name}::{function}: ");
    let Some(answer) = log.lines().find_map(|line| line.strip_prefix(&start)) else {
        return Said::Nothing;
    };
    if answer.starts_with("proved") {
        return Said::Proved;
    }
    let proof = format!("proofs/{}/", function.replace("::", "/"));
    let own_error = |line: &str| {
        line.trim_start_matches("./").starts_with(&proof)
            && line.contains(": error: ")
            && !FOLLOWS.iter().any(|words| line.contains(words))
    };
    // goals of its own, or a loop's invariant and measure
    let is_open = answer.contains("did not prove") || answer.contains("expected ");
    let of_others = answer.contains("it calls `") || answer.starts_with("no proof");
    if is_open || !of_others || log.lines().any(own_error) {
        Said::Refused
    } else {
        Said::Nothing
    }
}

#[cfg(test)]
mod tests {
    use super::*;

    const LOG: &str = "\
./proofs/f/Answers.antt:1:2: error: `returns` was not admitted (it has holes)
./proofs/a/g/Answers.antt:1:2: error: the two sides differ
fn c::h: proved
fn c::f: not proved; it calls `c::i`, which is not proved
fn c::a::g: not proved; it calls `c::i`, which is not proved
fn c::i: not proved
fn c::k: no proof: expected answers in ./proofs/k/Answers.antt; `search` did not prove `returns`; it calls `c::i`, which is not proved
fn c::l: no proof: it calls `c::i`, which is not proved
fn c::m: no proof: the borrow checker's part in its proof is not made yet: a call of `c::i`, which has no proof
logic=not-proved
";

    #[test]
    fn what_a_log_says() {
        let said = |function| said(LOG, "c", function);
        assert_eq!(said("h"), Said::Proved);
        assert_eq!(said("f"), Said::Nothing);
        assert_eq!(said("a::g"), Said::Refused);
        assert_eq!(said("i"), Said::Refused);
        assert_eq!(said("k"), Said::Refused);
        assert_eq!(said("l"), Said::Nothing);
        assert_eq!(said("m"), Said::Nothing);
        assert_eq!(said("none"), Said::Nothing);
    }
}
