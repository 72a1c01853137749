//! The lines of a script, of any bytes and any length, in constant memory.

use std::io::{self, BufRead, Read};

/// Reads lines one after another into the same buffer.
pub struct Lines<R> {
    input: R,
    line: Vec<u8>,
    largest: usize,
}

impl<R: BufRead> Lines<R> {
    /// The lines of `input`; whoever asks reads none longer than `largest`.
    pub fn of(input: R, largest: usize) -> Self {
        Lines {
            input,
            line: Vec::new(),
            largest,
        }
    }

    /// The next line without its newline, or None at the end of the input.
    ///
    /// Of a line longer than the largest only the first bytes are
    /// answered, one more than that, so that it is seen to be too long.
    pub fn next_line(&mut self) -> io::Result<Option<&[u8]>> {
        self.line.clear();
        let limit = self.largest as u64 + 1;
        let mut front = self.input.by_ref().take(limit);
        if front.read_until(b'\n', &mut self.line)? == 0 {
            return Ok(None);
        }
        if self.line.last() == Some(&b'\n') {
            self.line.pop();
        } else if self.line.len() > self.largest {
            self.input.skip_until(b'\n')?;
        }
        Ok(Some(&self.line))
    }
}

#[cfg(test)]
mod tests {
    use super::*;

    const LARGEST_LINE: usize = 300_000;

    fn lengths(input: &[u8]) -> Vec<usize> {
        let mut lines = Lines::of(input, LARGEST_LINE);
        let mut lengths = Vec::new();
        while let Some(line) = lines.next_line().unwrap() {
            lengths.push(line.len());
        }
        lengths
    }

    #[test]
    fn a_last_line_needs_no_newline() {
        assert_eq!(lengths(b""), []);
        assert_eq!(lengths(b"\n"), [0]);
        assert_eq!(lengths(b"a\n\nbc"), [1, 0, 2]);
        assert_eq!(lengths(b"a\n\nbc\n"), [1, 0, 2]);
    }

    #[test]
    fn a_long_line_is_one_line() {
        for (length, seen) in [
            (LARGEST_LINE - 1, LARGEST_LINE - 1),
            (LARGEST_LINE, LARGEST_LINE),
            (LARGEST_LINE + 1, LARGEST_LINE + 1),
            (LARGEST_LINE + 2, LARGEST_LINE + 1),
            (3 * LARGEST_LINE, LARGEST_LINE + 1),
        ] {
            let mut input = vec![b'x'; length];
            assert_eq!(lengths(&input), [seen]);
            input.extend_from_slice(b"\nyy\n");
            assert_eq!(lengths(&input), [seen, 2]);
        }
    }
}
