//! The tokens of a Rattle file, as far as edits need them. Comments and white space are none.

#[derive(Clone, Copy, Debug, PartialEq, Eq)]
pub enum Kind {
    Word,
    Number,
    /// `b'x'`
    Byte,
    /// `b"text"` or `"text"`
    Text,
    /// An operator or a mark; any other character too.
    Mark,
}

#[derive(Clone, Copy, Debug)]
pub struct Token {
    pub kind: Kind,
    pub start: usize,
    pub end: usize,
}

impl Token {
    pub fn text<'s>(&self, source: &'s str) -> &'s str {
        &source[self.start..self.end]
    }
}

/// Marks of more than one character, longest first.
const MARKS: [&str; 16] = [
    "..=", "::", "->", "=>", "==", "!=", "<=", ">=", "&&", "||", "+=", "-=", "*=", "/=", "%=", "..",
];

pub fn tokens(source: &str) -> Vec<Token> {
    let mut found = Vec::new();
    let mut at = 0;
    while let Some(next) = source[at..].chars().next() {
        if next.is_whitespace() {
            at += next.len_utf8();
        } else if source[at..].starts_with("//") {
            at += source[at..].find('\n').unwrap_or(source.len() - at);
        } else {
            let token = token_at(source, at);
            at = token.end;
            found.push(token);
        }
    }
    found
}

fn token_at(source: &str, at: usize) -> Token {
    let rest = &source[at..];
    let first = rest.chars().next().expect("the caller saw a character");
    let (kind, length) = if rest.starts_with("b'") {
        (Kind::Byte, quoted(rest, 2, '\''))
    } else if rest.starts_with("b\"") {
        (Kind::Text, quoted(rest, 2, '"'))
    } else if first == '"' {
        (Kind::Text, quoted(rest, 1, '"'))
    } else if first.is_ascii_digit() {
        (Kind::Number, word_length(rest))
    } else if first.is_ascii_alphabetic() || first == '_' {
        (Kind::Word, word_length(rest))
    } else {
        let mark = MARKS.iter().find(|mark| rest.starts_with(**mark));
        (Kind::Mark, mark.map_or(first.len_utf8(), |mark| mark.len()))
    };
    Token {
        kind,
        start: at,
        end: at + length,
    }
}

fn word_length(rest: &str) -> usize {
    rest.find(|c: char| !c.is_ascii_alphanumeric() && c != '_')
        .unwrap_or(rest.len())
}

/// The length of a literal whose text begins behind `open` bytes and ends with `close`.
fn quoted(rest: &str, open: usize, close: char) -> usize {
    let mut escaped = false;
    for (at, c) in rest[open..].char_indices() {
        if c == close && !escaped {
            return open + at + 1;
        }
        escaped = c == '\\' && !escaped;
    }
    rest.len()
}

#[cfg(test)]
mod tests {
    use super::*;

    fn texts(source: &str) -> Vec<&str> {
        tokens(source).iter().map(|t| t.text(source)).collect()
    }

    #[test]
    fn ranges_fields_and_literals() {
        assert_eq!(
            texts("a.0 <= b'\\'' // no\n &s[0..12] ⌜"),
            ["a", ".", "0", "<=", "b'\\''", "&", "s", "[", "0", "..", "12", "]", "⌜"]
        );
    }
}
