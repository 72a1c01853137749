//! Which tokens of a file are code: the bodies of functions and the values of constants. Contracts, signatures, declarations of types,
//! `use` and `ghost use` lines and the types of `let` are none.

use crate::tokens::Token;

/// For each token whether it is code.
pub fn code(source: &str, tokens: &[Token]) -> Vec<bool> {
    let mut marked = vec![false; tokens.len()];
    let mut at = 0;
    while at < tokens.len() {
        at = match tokens[at].text(source) {
            "#" => past_block(source, tokens, at + 1),
            "use" | "mod" => past(source, tokens, at, ";"),
            "struct" | "enum" => past_declaration(source, tokens, at),
            "const" => mark_value(source, tokens, at, &mut marked),
            "fn" => mark_body(source, tokens, at, &mut marked),
            _ => at + 1,
        };
    }
    marked
}

/// The place behind the next `mark` outside of brackets.
fn past(source: &str, tokens: &[Token], from: usize, mark: &str) -> usize {
    let mut at = from;
    while at < tokens.len() {
        match tokens[at].text(source) {
            text if text == mark => return at + 1,
            "(" | "[" | "{" => at = past_block(source, tokens, at),
            _ => at += 1,
        }
    }
    at
}

/// The place behind the bracket that closes the one at `open`.
pub fn past_block(source: &str, tokens: &[Token], open: usize) -> usize {
    let mut depth = 0;
    let mut at = open;
    while at < tokens.len() {
        match tokens[at].text(source) {
            "(" | "[" | "{" => depth += 1,
            ")" | "]" | "}" => depth -= 1,
            _ => {}
        }
        at += 1;
        if depth == 0 {
            return at;
        }
    }
    at
}

/// A struct ends with its brace, or with `;` where its fields are a tuple.
fn past_declaration(source: &str, tokens: &[Token], from: usize) -> usize {
    let mut at = from;
    while at < tokens.len() {
        match tokens[at].text(source) {
            "{" => return past_block(source, tokens, at),
            ";" => return at + 1,
            _ => at += 1,
        }
    }
    at
}

fn mark_value(source: &str, tokens: &[Token], from: usize, marked: &mut [bool]) -> usize {
    let value = past(source, tokens, from, "=");
    let end = past(source, tokens, value, ";");
    marked[value..end].fill(true);
    end
}

fn mark_body(source: &str, tokens: &[Token], from: usize, marked: &mut [bool]) -> usize {
    let (at, end) = body(source, tokens, from);
    marked[at..end].fill(true);
    unmark_types(source, &tokens[at..end], &mut marked[at..end]);
    end
}

/// The body of the function whose `fn` stands at `from`: the first brace behind its signature that belongs to no `requires` or `ensures`.
pub fn body(source: &str, tokens: &[Token], from: usize) -> (usize, usize) {
    let mut at = from;
    while at < tokens.len() {
        match tokens[at].text(source) {
            "requires" | "ensures" => at = past_clause(source, tokens, at),
            "(" | "[" => at = past_block(source, tokens, at),
            "{" => break,
            _ => at += 1,
        }
    }
    (at, past_block(source, tokens, at))
}

/// `ensures { .. }`, `ensures name { .. }` or `ensures* { .. }`.
fn past_clause(source: &str, tokens: &[Token], from: usize) -> usize {
    let rest = &tokens[from..];
    let open = rest.iter().position(|token| token.text(source) == "{");
    open.map_or(tokens.len(), |open| past_block(source, tokens, from + open))
}

/// `let name: TYPE = ..`: the type is no code.
fn unmark_types(source: &str, body: &[Token], marked: &mut [bool]) {
    let mut typed = false;
    let mut after_let = false;
    for (token, mark) in body.iter().zip(marked) {
        match token.text(source) {
            "let" => after_let = true,
            ":" if after_let => typed = true,
            "=" => {
                after_let = false;
                typed = false;
            }
            _ => {}
        }
        if typed {
            *mark = false;
        }
    }
}

#[cfg(test)]
mod tests {
    use super::*;
    use crate::tokens::tokens;

    fn marked(source: &str) -> String {
        let all = tokens(source);
        let marks = code(source, &all);
        let words: Vec<&str> = all
            .iter()
            .zip(marks)
            .filter(|(_, mark)| *mark)
            .map(|(token, _)| token.text(source))
            .collect();
        words.join(" ")
    }

    #[test]
    fn bodies_and_values_alone() {
        let source = "ghost use a.{b}; use c::D; const N: [u8; 2] = 3; struct S { a: u8 }\n\
            #[unsafe(no_mangle)] pub fn f(a: [u8; 4]) -> u8 requires { x (5) } ensures low { 6 } ensures* { 9 } { let x: [u8; 7] = 8; x }";
        assert_eq!(marked(source), "3 ; { let x = 8 ; x }");
    }
}
