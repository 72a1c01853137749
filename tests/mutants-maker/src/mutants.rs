//! The mutants of a crate: its edits with their names.

use std::fs;
use std::io;
use std::path::{Path, PathBuf};

use crate::edits::{edits, Edit};
use crate::fields::Fields;
use crate::functions::Functions;
use crate::tokens::tokens;

/// One edit of one file of a crate.
pub struct Mutant {
    /// below the crate's folder
    pub path: String,
    /// path, line and column
    pub place: String,
    /// the function it is in
    pub function: Option<String>,
    pub kind: &'static str,
    /// the lines that the edit touches, before and after it
    pub old: String,
    pub new: String,
    edit: Edit,
}

impl Mutant {
    fn of(path: &str, source: &str, functions: &Functions, edit: Edit) -> Mutant {
        let first = source[..edit.start].rfind('\n').map_or(0, |at| at + 1);
        let last = source[edit.end..]
            .find('\n')
            .map_or(source.len(), |at| edit.end + at);
        let line = source[..edit.start].matches('\n').count() + 1;
        let column = source[first..edit.start].chars().count() + 1;
        Mutant {
            path: path.to_string(),
            place: format!("{path}:{line}:{column}"),
            function: functions
                .at(path, edit.start)
                .map(|function| function.name.clone()),
            kind: edit.kind,
            old: joined(&source[first..last]),
            new: joined(&format!(
                "{}{}{}",
                &source[first..edit.start],
                edit.new,
                &source[edit.end..last]
            )),
            edit,
        }
    }

    /// What tells one mutant of a crate from another.
    pub fn key(&self) -> String {
        format!("{}\t{}\t{}\t{}", self.place, self.kind, self.old, self.new)
    }
}

/// A file after some edits of it, no two of which touch.
pub fn edited(source: &str, mutants: &[&Mutant]) -> String {
    let mut edits: Vec<&Edit> = mutants.iter().map(|mutant| &mutant.edit).collect();
    edits.sort_by_key(|edit| edit.start);
    let mut text = String::new();
    let mut at = 0;
    for edit in edits {
        text.push_str(&source[at..edit.start]);
        text.push_str(&edit.new);
        at = edit.end;
    }
    text.push_str(&source[at..]);
    text
}

/// The words of some lines in one line.
fn joined(lines: &str) -> String {
    lines.split_whitespace().collect::<Vec<_>>().join(" ")
}

/// The code files of all crates, for the fields that they declare.
pub fn declared_fields(repository: &Path, crates: &[String]) -> io::Result<Fields> {
    let mut fields = Fields::default();
    for name in crates {
        for path in files(&repository.join("crates").join(name).join("src"))? {
            let source = fs::read_to_string(path)?;
            fields.declared(&source, &tokens(&source));
        }
    }
    Ok(fields)
}

/// The functions of a crate.
pub fn functions(folder: &Path) -> io::Result<Functions> {
    let mut functions = Functions::default();
    for path in files(&folder.join("src"))? {
        functions.declared(&below(folder, &path), &fs::read_to_string(&path)?);
    }
    Ok(functions)
}

/// All mutants of a crate, by file and place.
pub fn mutants(folder: &Path, fields: &Fields) -> io::Result<Vec<Mutant>> {
    let functions = functions(folder)?;
    let mut all = Vec::new();
    for path in files(&folder.join("src"))? {
        let source = fs::read_to_string(&path)?;
        let below = below(folder, &path);
        all.extend(
            edits(&source, fields)
                .into_iter()
                .map(|edit| Mutant::of(&below, &source, &functions, edit)),
        );
    }
    Ok(all)
}

/// One in `every`, always the same ones, by a sum of their names; in the order of their places.
pub fn sample(mutants: Vec<Mutant>, every: usize) -> Vec<Mutant> {
    let count = mutants.len().div_ceil(every);
    let mut order: Vec<usize> = (0..mutants.len()).collect();
    order.sort_by_key(|at| sum(0, mutants[*at].key().as_bytes()));
    let mut taken = vec![false; mutants.len()];
    order[..count].iter().for_each(|at| taken[*at] = true);
    mutants
        .into_iter()
        .zip(taken)
        .filter(|(_, taken)| *taken)
        .map(|(mutant, _)| mutant)
        .collect()
}

/// A number for the text of a crate's code, definitions and proofs: results hold for that text alone.
pub fn version(folder: &Path) -> io::Result<String> {
    let mut total = 0;
    for part in ["src", "specs", "proofs"] {
        for path in files(&folder.join(part))? {
            let name = below(folder, &path);
            total = sum(sum(total, name.as_bytes()), &fs::read(path)?);
        }
    }
    Ok(format!("{total:016x}"))
}

/// A path below a folder, as it is printed.
fn below(folder: &Path, path: &Path) -> String {
    let rest = path.strip_prefix(folder).expect("it was found there");
    rest.to_string_lossy().to_string()
}

/// FNV-1a, from an earlier sum on; its last bits are mixed, since short names differ in few.
fn sum(start: u64, bytes: &[u8]) -> u64 {
    let all = bytes
        .iter()
        .fold(start ^ 0xcbf2_9ce4_8422_2325, |so_far, byte| {
            (so_far ^ u64::from(*byte)).wrapping_mul(0x0100_0000_01b3)
        });
    (all ^ (all >> 32)).wrapping_mul(0x9e37_79b9_7f4a_7c15)
}

/// The files below a folder, sorted; none where there is no folder.
fn files(folder: &Path) -> io::Result<Vec<PathBuf>> {
    let mut found = Vec::new();
    if !folder.is_dir() {
        return Ok(found);
    }
    for entry in fs::read_dir(folder)? {
        let path = entry?.path();
        if path.is_dir() {
            found.extend(files(&path)?);
        } else {
            found.push(path);
        }
    }
    found.sort();
    Ok(found)
}
