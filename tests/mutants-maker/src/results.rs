//! The file of results: one line a mutant, kept between runs, so that a finished one is not tried again.

use std::collections::HashMap;
use std::fs;
use std::io::{self, Write};
use std::path::{Path, PathBuf};

use crate::mutants::Mutant;
use crate::tree::Verdict;

pub struct Results {
    path: PathBuf,
    /// verdict and seconds, by crate, version and mutant
    known: HashMap<String, (Verdict, f64)>,
}

impl Results {
    pub fn read(path: &Path) -> io::Result<Results> {
        let text = if path.exists() {
            fs::read_to_string(path)?
        } else {
            String::new()
        };
        Ok(Results {
            path: path.to_path_buf(),
            // what could not be told is tried again
            known: text
                .lines()
                .filter_map(parsed)
                .filter(|(_, said)| said.0 != Verdict::Unclear)
                .collect(),
        })
    }

    pub fn of(&self, name: &str, version: &str, mutant: &Mutant) -> Option<(Verdict, f64)> {
        self.known.get(&key(name, version, mutant)).copied()
    }

    pub fn add(
        &mut self,
        name: &str,
        version: &str,
        mutant: &Mutant,
        said: (Verdict, f64),
    ) -> io::Result<()> {
        let key = key(name, version, mutant);
        let mut file = fs::OpenOptions::new()
            .create(true)
            .append(true)
            .open(&self.path)?;
        writeln!(file, "{key}\t{}\t{:.1}", said.0.name(), said.1)?;
        self.known.insert(key, said);
        Ok(())
    }
}

fn key(name: &str, version: &str, mutant: &Mutant) -> String {
    format!("{name}\t{version}\t{}", mutant.key())
}

fn parsed(line: &str) -> Option<(String, (Verdict, f64))> {
    let (rest, seconds) = line.rsplit_once('\t')?;
    let (key, said) = rest.rsplit_once('\t')?;
    let verdict = Verdict::ALL
        .into_iter()
        .find(|verdict| verdict.name() == said)?;
    Some((key.to_string(), (verdict, seconds.parse().ok()?)))
}
