//! Compares the block room's functions, in the C archive, with the reference:
//! `room SEED ROUNDS`. A round is one operation; the seed alone tells which.

mod compare;
mod loose;
mod operation;
mod proved;
mod sequence;

use std::process::ExitCode;

use compare::Fault;
use reference::generate::random::Random;
use sequence::Sequence;

/// A sequence begins anew after so many rounds, with other owners and bytes.
const SEQUENCE_ROUNDS: u64 = 1_000;

/// One round in so many is a single call on any map and pool instead.
const LOOSE: usize = 4;

fn main() -> ExitCode {
    let Some((seed, rounds)) = arguments() else {
        eprintln!("usage: room SEED ROUNDS");
        return ExitCode::from(2);
    };
    let mut random = Random::of(seed);
    let mut sequence = Sequence::start(&mut random);
    for step in 0..rounds {
        if step % SEQUENCE_ROUNDS == 0 {
            sequence = Sequence::start(&mut random);
        }
        if let Err(fault) = round(&mut sequence, &mut random) {
            report(seed, step, &fault);
            return ExitCode::FAILURE;
        }
    }
    println!("room: {seed} {rounds} rounds, no difference");
    ExitCode::SUCCESS
}

fn arguments() -> Option<(u64, u64)> {
    let words: Vec<String> = std::env::args().skip(1).collect();
    let [seed, rounds] = words.as_slice() else {
        return None;
    };
    Some((seed.parse().ok()?, rounds.parse().ok()?))
}

fn round(sequence: &mut Sequence, random: &mut Random) -> Result<(), Fault> {
    if random.once_in(LOOSE) {
        return loose::run(random);
    }
    let operation = sequence.draw(random);
    sequence
        .perform(&operation, random)
        .map_err(|difference| difference.during(operation.to_string()))
}

fn report(seed: u64, step: u64, fault: &Fault) {
    let difference = &fault.difference;
    println!("room: seed {seed}, step {step}: {}", fault.operation);
    println!("  differs:   {}", difference.what);
    println!("  reference: {}", difference.reference);
    println!("  proved:    {}", difference.proved);
}
