//! Tries small edits of the crates' code and counts those that the prover refuses. `../mutants` says how it is run.

mod batches;
mod edits;
mod fields;
mod functions;
mod mutants;
mod places;
mod results;
mod tokens;
mod tree;
mod trial;

use std::env;
use std::fs;
use std::io;
use std::path::{Path, PathBuf};
use std::process::ExitCode;

use fields::Fields;
use mutants::Mutant;
use results::Results;
use tree::{Tree, Verdict};
use trial::Trial;

const USAGE: &str = "usage: mutants REPOSITORY [--list] [--every N] CRATE..";

struct Arguments {
    repository: PathBuf,
    /// only print them
    list: bool,
    /// one in so many is tried
    every: usize,
    crates: Vec<String>,
}

fn main() -> ExitCode {
    let Some(arguments) = arguments() else {
        eprintln!("{USAGE}");
        return ExitCode::from(2);
    };
    match run(&arguments) {
        Ok(()) => ExitCode::SUCCESS,
        Err(error) => {
            eprintln!("mutants: {error}");
            ExitCode::FAILURE
        }
    }
}

fn arguments() -> Option<Arguments> {
    let mut words = env::args().skip(1);
    let mut read = Arguments {
        repository: PathBuf::from(words.next()?),
        list: false,
        every: 1,
        crates: Vec::new(),
    };
    while let Some(word) = words.next() {
        match word.as_str() {
            "--list" => read.list = true,
            "--every" => read.every = words.next()?.parse().ok().filter(|every| *every > 0)?,
            name if name.starts_with('-') => return None,
            _ => read.crates.push(word),
        }
    }
    (!read.crates.is_empty()).then_some(read)
}

fn run(arguments: &Arguments) -> io::Result<()> {
    let listed = fs::read_to_string(arguments.repository.join("crates.txt"))?;
    let all: Vec<String> = tree::names(&listed)
        .into_iter()
        .map(str::to_string)
        .collect();
    let fields = mutants::declared_fields(&arguments.repository, &all)?;
    if let Some(unknown) = arguments.crates.iter().find(|name| !all.contains(name)) {
        return Err(io::Error::other(format!("crates.txt lists no {unknown}")));
    }
    if arguments.list {
        return arguments
            .crates
            .iter()
            .try_for_each(|name| list(arguments, &fields, name));
    }
    let path = arguments.repository.join("target/mutants/results");
    let mut results = Results::read(&path)?;
    let mut table = vec!["| crate | mutants | tried | not compiled | refused | survived | could not tell | seconds each |".to_string()];
    table.push("|---|---|---|---|---|---|---|---|".to_string());
    for name in &arguments.crates {
        table.push(tried(arguments, &fields, name, &mut results)?);
    }
    table.iter().for_each(|row| println!("{row}"));
    Ok(())
}

fn list(arguments: &Arguments, fields: &Fields, name: &str) -> io::Result<()> {
    let all = mutants::mutants(&arguments.repository.join("crates").join(name), fields)?;
    for mutant in mutants::sample(all, arguments.every) {
        println!("{name}\t{}", mutant.key());
    }
    Ok(())
}

/// Tries a crate's mutants; its row of the table.
fn tried(
    arguments: &Arguments,
    fields: &Fields,
    name: &str,
    results: &mut Results,
) -> io::Result<String> {
    let folder = arguments.repository.join("crates").join(name);
    let version = mutants::version(&folder)?;
    let all = mutants::mutants(&folder, fields)?;
    let count = all.len();
    let chosen = mutants::sample(all, arguments.every);
    let mut waiting: Vec<&Mutant> = chosen.iter().collect();
    waiting.retain(|mutant| results.of(name, &version, mutant).is_none());
    if !waiting.is_empty() {
        let trial = Trial {
            tree: proved_tree(&arguments.repository, name)?,
            name,
        };
        while !waiting.is_empty() {
            for (mutant, new) in trial.next(&waiting)? {
                results.add(name, &version, mutant, new)?;
                println!("{name} {}: {} ({:.1} s)", mutant.place, new.0.name(), new.1);
            }
            waiting.retain(|mutant| results.of(name, &version, mutant).is_none());
        }
    }
    let said: Vec<(Verdict, f64)> = chosen
        .iter()
        .filter_map(|mutant| results.of(name, &version, mutant))
        .collect();
    Ok(row(name, count, &said))
}

fn row(name: &str, count: usize, said: &[(Verdict, f64)]) -> String {
    let counts = Verdict::ALL.map(|verdict| {
        said.iter()
            .filter(|(one, _)| *one == verdict)
            .count()
            .to_string()
    });
    let seconds: f64 = said.iter().map(|(_, seconds)| seconds).sum();
    let each = seconds / said.len().max(1) as f64;
    format!(
        "| `{name}` | {count} | {} | {} | {each:.1} |",
        said.len(),
        counts.join(" | ")
    )
}

/// The tree of a crate, which must be proved before any edit says something.
fn proved_tree(repository: &Path, name: &str) -> io::Result<Tree> {
    let tree = Tree::of(repository, name)?;
    let (verdict, seconds) = tree.check()?;
    if verdict != Verdict::Survived {
        let log = fs::read_to_string(tree.log())?;
        return Err(io::Error::other(format!(
            "{name} without an edit is not proved:\n{log}"
        )));
    }
    println!("{name}: proved without an edit ({seconds:.1} s)");
    Ok(tree)
}
