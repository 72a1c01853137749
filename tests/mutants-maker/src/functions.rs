//! The functions of a crate: their names as the prover prints them, and where they stand.

use crate::places::{body, past_block};
use crate::tokens::tokens;

pub struct Function {
    /// as in `fn crate::NAME: proved`
    pub name: String,
    path: String,
    start: usize,
    end: usize,
}

#[derive(Default)]
pub struct Functions {
    all: Vec<Function>,
}

impl Functions {
    /// Adds the functions of a file; `path` is below the crate's folder.
    pub fn declared(&mut self, path: &str, source: &str) {
        let tokens = tokens(source);
        let module = module(path);
        let mut owner = (String::new(), 0);
        let mut at = 0;
        while at < tokens.len() {
            match tokens[at].text(source) {
                "impl" => {
                    let name = tokens[at + 1].text(source);
                    owner = (format!("{name}::"), past_block(source, &tokens, at + 2));
                    at += 2;
                }
                "fn" => {
                    let (_, end) = body(source, &tokens, at);
                    let name = tokens[at + 1].text(source);
                    let owned = if at < owner.1 { owner.0.as_str() } else { "" };
                    self.all.push(Function {
                        name: format!("{module}{owned}{name}"),
                        path: path.to_string(),
                        start: tokens[at].start,
                        end: tokens[end - 1].end,
                    });
                    at = end;
                }
                _ => at += 1,
            }
        }
    }

    /// The function that has a place of a file in it.
    pub fn at(&self, path: &str, place: usize) -> Option<&Function> {
        self.all
            .iter()
            .find(|one| one.path == path && one.start <= place && place < one.end)
    }
}

/// `src/a/b.rt` is `a::b::`, the crate's root nothing.
fn module(path: &str) -> String {
    let below = path.trim_start_matches("src/").trim_end_matches(".rt");
    match below {
        "lib" | "main" => String::new(),
        _ => format!("{}::", below.replace('/', "::")),
    }
}

#[cfg(test)]
mod tests {
    use super::*;

    #[test]
    fn names_and_places() {
        let source = "fn f() -> u8 ensures low { g (result) } ensures* { result } { 1 }\nimpl Row { pub fn free(self) -> u8 { f() } }\nfn h() -> u8 { Row::free(r) }";
        let mut functions = Functions::default();
        functions.declared("src/a.rt", source);
        let names: Vec<&str> = functions.all.iter().map(|f| f.name.as_str()).collect();
        assert_eq!(names, ["a::f", "a::Row::free", "a::h"]);
        assert_eq!(
            functions
                .at("src/a.rt", source.find('1').unwrap())
                .map(|f| f.name.as_str()),
            Some("a::f")
        );
        assert!(functions.at("src/lib.rt", 1).is_none());
    }
}
