//! Tries mutants of one crate: several in one check, and one alone where that says nothing of it.

use std::collections::BTreeMap;
use std::fs;
use std::io;

use crate::batches::{self, Said};
use crate::mutants::{edited, Mutant};
use crate::tree::{Tree, Verdict};

pub struct Trial<'n> {
    pub tree: Tree,
    /// of the crate
    pub name: &'n str,
}

type Answer = (Verdict, f64);

impl Trial<'_> {
    /// Tries some of those that wait, at least one.
    pub fn next<'m>(&self, waiting: &[&'m Mutant]) -> io::Result<Vec<(&'m Mutant, Answer)>> {
        self.tried(&batches::next(waiting))
    }

    /// A batch: those that the compiler refuses one by one, which is soon said, and the others together.
    fn tried<'m>(&self, batch: &[&'m Mutant]) -> io::Result<Vec<(&'m Mutant, Answer)>> {
        let broken = self.broken(batch)?;
        let place = |mutant: &Mutant| mutant.key();
        let mut answers = Vec::new();
        for one in &broken {
            answers.push((*one, self.alone(one)?));
        }
        let mut rest = batch.to_vec();
        rest.retain(|one| !broken.iter().any(|other| place(other) == place(one)));
        if !rest.is_empty() {
            answers.extend(self.together(&rest)?);
        }
        Ok(answers)
    }

    /// Those of a batch that the compiler refuses.
    fn broken<'m>(&self, batch: &[&'m Mutant]) -> io::Result<Vec<&'m Mutant>> {
        if self.with(batch, || self.tree.compiles())? {
            return Ok(Vec::new());
        }
        if batch.len() == 1 {
            return Ok(batch.to_vec());
        }
        let (first, second) = batch.split_at(batch.len() / 2);
        let mut found = self.broken(first)?;
        found.extend(self.broken(second)?);
        Ok(found)
    }

    /// Several in one check; their halves, where that says nothing of the whole.
    fn together<'m>(&self, batch: &[&'m Mutant]) -> io::Result<Vec<(&'m Mutant, Answer)>> {
        if let [one] = batch {
            return Ok(vec![(one, self.alone(one)?)]);
        }
        let (verdict, seconds) = self.with(batch, || self.tree.check())?;
        println!("{}: {} together ({seconds:.1} s)", self.name, batch.len());
        if matches!(verdict, Verdict::NotCompiled | Verdict::Unclear) {
            let (first, second) = batch.split_at(batch.len() / 2);
            let mut answers = self.together(first)?;
            answers.extend(self.together(second)?);
            return Ok(answers);
        }
        let log = fs::read_to_string(self.tree.log())?;
        let each = seconds / batch.len() as f64;
        let said = |mutant: &Mutant| {
            let function = mutant.function.as_deref().unwrap_or("");
            batches::said(&log, self.name, function)
        };
        let proved: Vec<&Mutant> = batch
            .iter()
            .copied()
            .filter(|one| said(one) == Said::Proved)
            .collect();
        let again = self.sure(&proved)?;
        let mut answers = Vec::new();
        for mutant in batch {
            let answer = match (said(mutant), again) {
                (Said::Refused, _) => (Verdict::Refused, each),
                (Said::Proved, Some(more)) => (Verdict::Survived, each + more),
                _ => self.alone(mutant)?,
            };
            answers.push((*mutant, answer));
        }
        Ok(answers)
    }

    /// Those that a check proved, once more together and with nothing kept of earlier checks: the seconds of each, if they are proved again.
    fn sure(&self, proved: &[&Mutant]) -> io::Result<Option<f64>> {
        if proved.is_empty() {
            return Ok(None);
        }
        let (verdict, seconds) = self.with(proved, || self.tree.check_from_nothing())?;
        Ok((verdict == Verdict::Survived).then_some(seconds / proved.len() as f64))
    }

    /// One that survives is checked once more with nothing kept of earlier checks.
    fn alone(&self, mutant: &Mutant) -> io::Result<Answer> {
        self.with(&[mutant], || {
            let first = self.tree.check()?;
            if first.0 != Verdict::Survived {
                return Ok(first);
            }
            let (sure, seconds) = self.tree.check_from_nothing()?;
            Ok((sure, first.1 + seconds))
        })
    }

    /// Does something while the edits stand in the tree.
    fn with<T>(&self, batch: &[&Mutant], act: impl FnOnce() -> io::Result<T>) -> io::Result<T> {
        let mut by_file: BTreeMap<&str, Vec<&Mutant>> = BTreeMap::new();
        for mutant in batch {
            by_file.entry(&mutant.path).or_default().push(mutant);
        }
        let mut before = Vec::new();
        for (path, mutants) in by_file {
            let file = self.tree.file(path);
            let source = fs::read_to_string(&file)?;
            fs::write(&file, edited(&source, &mutants))?;
            before.push((file, source));
        }
        let done = act();
        for (file, source) in before {
            fs::write(file, source)?;
        }
        done
    }
}
