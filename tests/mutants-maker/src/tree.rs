//! A copy of one crate and of what it depends on, in which edits are tried. It lies among the temporary files: in a checkout rt ci takes no
//! .rt file but those of its crates.

use std::collections::BTreeSet;
use std::env;
use std::fs;
use std::io;
use std::path::{Path, PathBuf};
use std::process::{self, Command, Stdio};
use std::time::Instant;

/// Seconds after which a check counts as one that cannot tell.
const PATIENCE: &str = "600";

/// What a check said.
#[derive(Clone, Copy, Debug, PartialEq, Eq)]
pub enum Verdict {
    Refused,
    Survived,
    NotCompiled,
    /// Another status, or no answer in time.
    Unclear,
}

impl Verdict {
    pub const ALL: [Verdict; 4] = [
        Verdict::NotCompiled,
        Verdict::Refused,
        Verdict::Survived,
        Verdict::Unclear,
    ];

    pub fn name(self) -> &'static str {
        match self {
            Verdict::Refused => "refused",
            Verdict::Survived => "SURVIVED",
            Verdict::NotCompiled => "not compiled",
            Verdict::Unclear => "UNCLEAR",
        }
    }
}

pub struct Tree {
    root: PathBuf,
    name: String,
}

impl Tree {
    /// Copies the crate `name` of the repository and what it depends on. Its checks begin with what those of the repository kept.
    pub fn of(repository: &Path, name: &str) -> io::Result<Tree> {
        let root = env::temp_dir().join(format!("mutants-{}-{name}", process::id()));
        let listed = fs::read_to_string(repository.join("crates.txt"))?;
        remove(&root)?;
        let tree = Tree {
            root,
            name: name.to_string(),
        };
        let mut lines = String::new();
        for part in needs(&listed, name).iter().map(String::as_str).chain([name]) {
            lines += &format!("{}\n", line_of(&listed, part));
            for folder in ["src", "specs", "proofs"] {
                let path = format!("crates/{part}/{folder}");
                if repository.join(&path).is_dir() {
                    copy(&repository.join(&path), &tree.root.join(&path))?;
                }
            }
        }
        fs::write(tree.root.join("crates.txt"), lines)?;
        Ok(tree)
    }

    fn folder(&self) -> PathBuf {
        self.root.join("crates").join(&self.name)
    }

    pub fn file(&self, path: &str) -> PathBuf {
        self.folder().join(path)
    }

    /// Checks the crate as it stands; the verdict and the seconds it took.
    pub fn check(&self) -> io::Result<(Verdict, f64)> {
        let began = Instant::now();
        let log = self.log();
        let said = fs::File::create(&log)?;
        let status = Command::new("timeout")
            .args([PATIENCE, "rt", "check", "--jobs", "1"])
            .current_dir(self.folder())
            .stdin(Stdio::null())
            .stderr(said.try_clone()?)
            .stdout(said)
            .status()?;
        let text = fs::read_to_string(&log)?;
        let verdict = verdict(status.code(), &text);
        Ok((verdict, began.elapsed().as_secs_f64()))
    }

    /// Whether the compiler takes the crate as it stands: some seconds, where a check takes many.
    pub fn compiles(&self) -> io::Result<bool> {
        let status = Command::new("rt")
            .args(["check", "--jobs", "1", "--only="])
            .current_dir(self.folder())
            .stdin(Stdio::null())
            .stdout(Stdio::null())
            .stderr(Stdio::null())
            .status()?;
        Ok(status.success())
    }

    /// Checks it with nothing kept of earlier checks of the crate; what was kept is put back.
    pub fn check_from_nothing(&self) -> io::Result<(Verdict, f64)> {
        let kept = self.folder().join("out/incremental");
        let aside = self.root.join("kept");
        remove(&aside)?;
        fs::rename(&kept, &aside)?;
        // an empty folder is what rt begins with, and not what a check elsewhere kept
        fs::create_dir(&kept)?;
        let answer = self.check();
        remove(&kept)?;
        fs::rename(&aside, &kept)?;
        answer
    }

    /// What the last check said.
    pub fn log(&self) -> PathBuf {
        self.root.join("log")
    }
}

impl Drop for Tree {
    fn drop(&mut self) {
        // what is left is of no use, and lies among the temporary files
        let _ = remove(&self.root);
    }
}

/// What the status and the text of `rt check` say.
fn verdict(status: Option<i32>, said: &str) -> Verdict {
    let has = |start: &str| said.lines().any(|line| line.starts_with(start));
    match status {
        Some(0) => Verdict::Survived,
        Some(1) if has("logic=not-proved") => Verdict::Refused,
        Some(1) if said.contains("error[") => Verdict::NotCompiled,
        _ => Verdict::Unclear,
    }
}

/// The crates of the repository that `name` reaches.
fn needs(listed: &str, name: &str) -> BTreeSet<String> {
    let mut reached = BTreeSet::new();
    let mut open = vec![name.to_string()];
    while let Some(one) = open.pop() {
        for next in depends(listed, &one) {
            if !line_of(listed, &next).is_empty() && reached.insert(next.clone()) {
                open.push(next);
            }
        }
    }
    reached
}

/// The names of the crates: the first word of each line, `NAME: ..` or `NAME staticlib: ..`.
pub fn names(listed: &str) -> Vec<&str> {
    listed.lines().filter_map(name_in).collect()
}

fn name_in(line: &str) -> Option<&str> {
    let row = line.split('#').next().unwrap_or("");
    row.split([' ', ':']).next().filter(|name| !name.is_empty())
}

/// The line of a crate in crates.txt, or nothing: then it is a library of the kit.
fn line_of<'l>(listed: &'l str, name: &str) -> &'l str {
    let own = |line: &&str| name_in(line) == Some(name);
    listed.lines().find(own).unwrap_or("")
}

fn depends(listed: &str, name: &str) -> Vec<String> {
    let row = line_of(listed, name).split('#').next().unwrap_or("");
    let names = row.split(':').nth(1).unwrap_or("");
    names.split_whitespace().map(str::to_string).collect()
}

fn remove(path: &Path) -> io::Result<()> {
    match fs::remove_dir_all(path) {
        Err(error) if error.kind() != io::ErrorKind::NotFound => Err(error),
        _ => Ok(()),
    }
}

/// A file, or a folder with all that is in it.
fn copy(from: &Path, to: &Path) -> io::Result<()> {
    if !from.is_dir() {
        return fs::copy(from, to).map(|_| ());
    }
    fs::create_dir_all(to)?;
    for entry in fs::read_dir(from)? {
        let name = entry?.file_name();
        copy(&from.join(&name), &to.join(&name))?;
    }
    Ok(())
}

#[cfg(test)]
mod tests {
    use super::*;

    #[test]
    fn all_that_a_crate_reaches() {
        let listed = "# names\na:\nb: a bytes\nc staticlib: b # why\n";
        assert_eq!(names(listed), ["a", "b", "c"]);
        assert_eq!(
            needs(listed, "c").into_iter().collect::<Vec<_>>(),
            ["a", "b"]
        );
        assert!(needs(listed, "a").is_empty());
    }

    #[test]
    fn what_a_check_says() {
        let refused = "src/a.rt:1:2: error: no\nlogic=not-proved\n";
        assert_eq!(verdict(Some(0), "logic=proved sum=0\n"), Verdict::Survived);
        assert_eq!(verdict(Some(1), refused), Verdict::Refused);
        let broken = "src/a.rt:1:2: error[unknown-name]: cannot find value `b`\n";
        assert_eq!(verdict(Some(1), broken), Verdict::NotCompiled);
        assert_eq!(verdict(Some(2), ""), Verdict::Unclear);
        assert_eq!(verdict(None, refused), Verdict::Unclear);
    }
}
