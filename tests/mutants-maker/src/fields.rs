//! The fields of the declared structs: which names stand for a value of the same type of the same struct.

use std::collections::BTreeSet;

use crate::places::past_block;
use crate::tokens::{Kind, Token};

/// The fields of each struct, as name and type.
#[derive(Default)]
pub struct Fields {
    structs: Vec<Vec<(String, String)>>,
}

impl Fields {
    /// Adds what a file declares.
    pub fn declared(&mut self, source: &str, tokens: &[Token]) {
        for at in 0..tokens.len() {
            if tokens[at].text(source) == "struct"
                && at + 2 < tokens.len()
                && tokens[at + 2].text(source) == "{"
            {
                let end = past_block(source, tokens, at + 2);
                self.structs
                    .push(fields_of(source, &tokens[at + 3..end - 1]));
            }
        }
    }

    /// The other names of the type of `name`, in every struct that has it.
    pub fn others(&self, name: &str) -> BTreeSet<&str> {
        let mut others = BTreeSet::new();
        for fields in &self.structs {
            let Some((_, own)) = fields.iter().find(|(field, _)| field == name) else {
                continue;
            };
            let same = fields
                .iter()
                .filter(|(field, kind)| field != name && kind == own);
            others.extend(same.map(|(field, _)| field.as_str()));
        }
        others
    }
}

/// `[pub] name: TYPE, ..`; a ghost field is none.
fn fields_of(source: &str, tokens: &[Token]) -> Vec<(String, String)> {
    let mut fields: Vec<(String, String)> = Vec::new();
    let mut depth = 0;
    let mut name = "";
    let mut ghost = false;
    let mut typed = false;
    for token in tokens {
        let text = token.text(source);
        match text {
            "(" | "[" | "{" => depth += 1,
            ")" | "]" | "}" => depth -= 1,
            "," if depth == 0 => {
                typed = false;
                ghost = false;
            }
            "ghost" if !typed => ghost = true,
            ":" if !typed => {
                typed = true;
                if !ghost {
                    fields.push((name.to_string(), String::new()));
                }
                continue;
            }
            _ => {}
        }
        if !typed && token.kind == Kind::Word {
            name = text;
        } else if typed && !ghost {
            let last = fields.last_mut().expect("a type follows a name");
            last.1.push_str(text);
        }
    }
    fields
}

#[cfg(test)]
mod tests {
    use super::*;
    use crate::tokens::tokens;

    #[test]
    fn names_of_one_type() {
        let source = "pub struct Row { pub id: SessionId, // the id\n guarantee: u16, cap: u16, ghost low: { f (guarantee, cap) }, ghost high: { f (guarantee, cap) }, a: [u8; 2], b: [u8; 3] } struct T(u8);";
        let mut fields = Fields::default();
        fields.declared(source, &tokens(source));
        assert_eq!(
            fields.others("cap").into_iter().collect::<Vec<_>>(),
            ["guarantee"]
        );
        assert!(fields.others("low").is_empty());
        assert!(fields.others("a").is_empty());
        assert!(fields.others("id").is_empty());
    }
}
