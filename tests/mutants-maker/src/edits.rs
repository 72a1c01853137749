//! The edits of a file: small changes of its code that keep its shape.

use crate::fields::Fields;
use crate::places::{code, past_block};
use crate::tokens::{tokens, Kind, Token};

/// One edit: the bytes from start to end give way to `new`.
#[derive(Clone, Debug)]
pub struct Edit {
    pub kind: &'static str,
    pub start: usize,
    pub end: usize,
    pub new: String,
}

/// Words behind which no operand has ended.
const KEYWORDS: [&str; 12] = [
    "return", "if", "else", "while", "match", "let", "in", "for", "loop", "mut", "as", "break",
];

/// Marks and words with another in their place.
const SWAPS: [(&str, &str, &str); 19] = [
    ("order", "<", "<="),
    ("order", "<=", "<"),
    ("order", ">", ">="),
    ("order", ">=", ">"),
    ("equality", "==", "!="),
    ("equality", "!=", "=="),
    ("and or", "&", "|"),
    ("and or", "|", "&"),
    ("and or", "&&", "||"),
    ("and or", "||", "&&"),
    ("truth", "true", "false"),
    ("truth", "false", "true"),
    ("sign", "+", "-"),
    ("sign", "-", "+"),
    ("sign", "+=", "-="),
    ("sign", "-=", "+="),
    ("division", "/", "%"),
    ("division", "%", "/"),
    ("dropped not", "!", ""),
];

/// A file with its tokens, and which of them are code.
struct File<'s> {
    source: &'s str,
    tokens: Vec<Token>,
    code: Vec<bool>,
}

/// All edits of a file, in the order of their places.
pub fn edits(source: &str, fields: &Fields) -> Vec<Edit> {
    let tokens = tokens(source);
    let code = code(source, &tokens);
    let file = File {
        source,
        tokens,
        code,
    };
    let mut found = Vec::new();
    for at in 0..file.tokens.len() {
        if file.code[at] {
            file.swapped(at, &mut found);
            file.counted(at, &mut found);
            file.renamed(at, fields, &mut found);
            file.dropped(at, &mut found);
        }
    }
    found
}

impl<'s> File<'s> {
    fn text(&self, at: usize) -> &'s str {
        self.tokens
            .get(at)
            .map_or("", |token| token.text(self.source))
    }

    fn edit(&self, kind: &'static str, at: usize, new: String) -> Edit {
        let token = self.tokens[at];
        Edit {
            kind,
            start: token.start,
            end: token.end,
            new,
        }
    }

    /// Whether an operand ends right before a token, so that a mark there stands between two.
    fn between(&self, at: usize) -> bool {
        let Some(before) = at.checked_sub(1) else {
            return false;
        };
        let text = self.text(before);
        match self.tokens[before].kind {
            Kind::Mark => text == ")" || text == "]",
            Kind::Word => !KEYWORDS.contains(&text),
            _ => true,
        }
    }

    fn swapped(&self, at: usize, found: &mut Vec<Edit>) {
        let text = self.text(at);
        let Some((kind, _, new)) = SWAPS.iter().find(|(_, old, _)| *old == text) else {
            return;
        };
        let unary = ["truth", "dropped not"].contains(kind);
        if unary || self.between(at) {
            found.push(self.edit(kind, at, new.to_string()));
        }
    }

    /// A number, or a byte, one more and one less; of a text the last byte.
    fn counted(&self, at: usize, found: &mut Vec<Edit>) {
        let text = self.text(at);
        match self.tokens[at].kind {
            Kind::Number if at == 0 || self.text(at - 1) != "." => {
                let Some((value, suffix)) = number(text) else {
                    return;
                };
                found.push(self.edit("one more", at, format!("{}{suffix}", value + 1)));
                if value > 0 {
                    found.push(self.edit("one less", at, format!("{}{suffix}", value - 1)));
                }
            }
            Kind::Byte if text.len() == 4 => {
                let byte = text.as_bytes()[2];
                found.extend(plain(byte + 1).map(|c| self.edit("one more", at, format!("b'{c}'"))));
                found.extend(plain(byte - 1).map(|c| self.edit("one less", at, format!("b'{c}'"))));
            }
            Kind::Text if text.starts_with("b\"") && text.len() > 3 => {
                let last = text.len() - 2;
                let more = plain(text.as_bytes()[last] + 1);
                found.extend(
                    more.map(|c| self.edit("other text", at, format!("{}{c}\"", &text[..last]))),
                );
            }
            _ => {}
        }
    }

    /// Another field of the same type.
    fn renamed(&self, at: usize, fields: &Fields, found: &mut Vec<Edit>) {
        let access = at > 0 && self.text(at - 1) == "." && self.tokens[at].kind == Kind::Word;
        if access && self.text(at + 1) != "(" {
            let others = fields.others(self.text(at));
            found.extend(
                others
                    .iter()
                    .map(|other| self.edit("other field", at, other.to_string())),
            );
        }
    }

    /// A statement that changes a place, or that is a call, left out.
    fn dropped(&self, at: usize, found: &mut Vec<Edit>) {
        let starts = at > 0 && ["{", "}", ";"].contains(&self.text(at - 1));
        if !starts || self.tokens[at].kind != Kind::Word || KEYWORDS.contains(&self.text(at)) {
            return;
        }
        let mut kind = "dropped call";
        let mut end = at;
        loop {
            match self.text(end) {
                ";" => break,
                "=" | "+=" | "-=" | "*=" | "/=" | "%=" => {
                    kind = "dropped update";
                    end += 1;
                }
                "(" | "[" => end = past_block(self.source, &self.tokens, end),
                // a struct, a match, the value of a block
                "{" | "}" | "," | ":" | "=>" | "" => return,
                _ => end += 1,
            }
        }
        found.push(Edit {
            kind,
            start: self.tokens[at].start,
            end: self.tokens[end].end,
            new: String::new(),
        });
    }
}

/// A character that stands for itself in a literal.
fn plain(byte: u8) -> Option<char> {
    let c = byte as char;
    (c.is_ascii_graphic() && !['\'', '"', '\\'].contains(&c)).then_some(c)
}

/// What a number's token says, and its type where it names one. In hexadecimal it names none.
fn number(text: &str) -> Option<(u128, &str)> {
    if let Some(digits) = text.strip_prefix("0x") {
        return Some((u128::from_str_radix(digits, 16).ok()?, ""));
    }
    let digits = text
        .find(|c: char| !c.is_ascii_digit() && c != '_')
        .unwrap_or(text.len());
    let value = text[..digits].replace('_', "").parse().ok()?;
    Some((value, &text[digits..]))
}

#[cfg(test)]
mod tests {
    use super::*;

    fn made(body: &str) -> Vec<String> {
        let source = format!("struct P {{ low: u8, high: u8 }}\nfn f(p: P) -> u8 {{ {body} }}");
        let mut fields = Fields::default();
        fields.declared(&source, &tokens(&source));
        let start = source.rfind(body).expect("the body is there");
        edits(&source, &fields)
            .into_iter()
            .map(|e| {
                format!(
                    "{}{}{}",
                    &source[start..e.start],
                    e.new,
                    &source[e.end..start + body.len()]
                )
            })
            .collect()
    }

    #[test]
    fn tests_and_numbers() {
        assert_eq!(
            made("(a.0 < 7) & !b"),
            [
                "(a.0 <= 7) & !b",
                "(a.0 < 8) & !b",
                "(a.0 < 6) & !b",
                "(a.0 < 7) | !b",
                "(a.0 < 7) & b"
            ]
        );
    }

    #[test]
    fn references_are_no_tests() {
        assert_eq!(made("g(&mut a, &b)"), [] as [&str; 0]);
    }

    #[test]
    fn fields_updates_and_calls() {
        assert_eq!(
            made("x.low = y; g(x); x.low"),
            [
                " g(x); x.low",
                "x.high = y; g(x); x.low",
                "x.low = y;  x.low",
                "x.low = y; g(x); x.high"
            ]
        );
    }

    #[test]
    fn literals() {
        assert_eq!(
            made("b'0' == \"C\""),
            ["b'1' == \"C\"", "b'/' == \"C\"", "b'0' != \"C\""]
        );
        assert_eq!(made("g(b\"mtu\")"), ["g(b\"mtv\")"]);
        assert_eq!(made("0x0f"), ["16", "14"]);
        assert_eq!(made("1_0u8"), ["11u8", "9u8"]);
    }

    #[test]
    fn the_fields_of_a_literal_are_no_statements() {
        assert_eq!(made("P { low: a, high: b }"), [] as [&str; 0]);
    }
}
