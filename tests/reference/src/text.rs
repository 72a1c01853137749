//! The words of DRIVER.md: decimal numbers, hexadecimal bytes, and CHECK.
//!
//! Everything works on bytes, because a script may hold any of them.

/// Stands for no bytes where HEX is expected.
const NO_BYTES: &[u8] = b"-";

const DIGITS: &[u8; 16] = b"0123456789abcdef";

/// Stands in [`DIGIT_VALUES`] for a byte that is no digit.
const NO_DIGIT: u8 = 0xff;

/// The value of each lower-case hexadecimal digit.
static DIGIT_VALUES: [u8; 256] = digit_values();

const fn digit_values() -> [u8; 256] {
    let mut values = [NO_DIGIT; 256];
    let mut value = 0;
    while value < DIGITS.len() {
        values[DIGITS[value] as usize] = value as u8;
        value += 1;
    }
    values
}

/// Reads a decimal number from 0 to `largest`, or None.
///
/// Only the digits 0 to 9 are read, so a sign is refused; zeros in front
/// change no value, so they are read.
pub fn parse_number(word: &[u8], largest: u32) -> Option<u32> {
    if word.is_empty() {
        return None;
    }
    let mut value = 0u64;
    for &byte in word {
        if !byte.is_ascii_digit() {
            return None;
        }
        value = value * 10 + u64::from(byte - b'0');
        if value > u64::from(largest) {
            return None;
        }
    }
    u32::try_from(value).ok()
}

/// Replaces `bytes` by those of a HEX word; None (and any `bytes`) if it is none.
///
/// "HEX is lower-case hexadecimal; `-` stands for no bytes": an empty word
/// is no HEX, nor is an upper-case digit.
pub fn parse_bytes(word: &[u8], bytes: &mut Vec<u8>) -> Option<()> {
    bytes.clear();
    if word == NO_BYTES {
        return Some(());
    }
    let (pairs, odd) = word.as_chunks::<2>();
    if pairs.is_empty() || !odd.is_empty() {
        return None;
    }
    // One look at all values joined, instead of a branch for each pair: the
    // values of digits joined stay below 16, and NO_DIGIT does not.
    let mut joined = 0;
    bytes.extend(pairs.iter().map(|&[high, low]| {
        let high = DIGIT_VALUES[usize::from(high)];
        let low = DIGIT_VALUES[usize::from(low)];
        joined |= high | low;
        high << 4 | low
    }));
    (joined < DIGITS.len() as u8).then_some(())
}

/// Appends a HEX word: the digits, or `-` for no bytes.
pub fn push_bytes(bytes: &[u8], line: &mut Vec<u8>) {
    if bytes.is_empty() {
        line.extend_from_slice(NO_BYTES);
        return;
    }
    let start = line.len();
    line.resize(start + 2 * bytes.len(), 0);
    for (pair, &byte) in line[start..].chunks_exact_mut(2).zip(bytes) {
        pair[0] = DIGITS[usize::from(byte >> 4)];
        pair[1] = DIGITS[usize::from(byte & 15)];
    }
}

/// Appends a number in decimal.
pub fn push_number(number: u64, line: &mut Vec<u8>) {
    let mut digits = [0; 20];
    let mut start = digits.len();
    let mut rest = number;
    loop {
        start -= 1;
        digits[start] = DIGITS[(rest % 10) as usize];
        rest /= 10;
        if rest == 0 {
            break;
        }
    }
    line.extend_from_slice(&digits[start..]);
}

/// CHECK's factor, and how many bytes are taken at a time.
const FACTOR: u32 = 31;
const STEP: usize = 64;

/// What the bytes of one step are worth: the last one 1, those before it
/// 31, 31 * 31 and so on.
static WORTHS: [u32; STEP] = worths();

const fn worths() -> [u32; STEP] {
    let mut worths = [1u32; STEP];
    let mut place = STEP - 1;
    while place > 0 {
        worths[place - 1] = worths[place].wrapping_mul(FACTOR);
        place -= 1;
    }
    worths
}

/// CHECK: "x := 7 and then x := (x * 31 + b[i]) mod 2^32 for each byte".
///
/// A pool is checked for every line, so that whole steps are taken at once:
/// x times 31 to the power of STEP, plus the bytes times their worths.
pub fn check(buffer: &[u8]) -> u32 {
    let step_factor = FACTOR.wrapping_mul(WORTHS[0]);
    let (steps, rest) = buffer.as_chunks::<STEP>();
    let x = steps.iter().fold(7u32, |x, step| {
        let worth = step.iter().zip(&WORTHS).fold(0u32, |sum, (&byte, &worth)| {
            sum.wrapping_add(worth.wrapping_mul(u32::from(byte)))
        });
        x.wrapping_mul(step_factor).wrapping_add(worth)
    });
    rest.iter().fold(x, |x, &byte| {
        x.wrapping_mul(FACTOR).wrapping_add(u32::from(byte))
    })
}

#[cfg(test)]
mod tests {
    use super::*;

    fn hex(word: &[u8]) -> Option<Vec<u8>> {
        let mut read = vec![1, 2, 3];
        parse_bytes(word, &mut read)?;
        Some(read)
    }

    #[test]
    fn numbers_end_at_their_largest() {
        assert_eq!(parse_number(b"0", 0), Some(0));
        assert_eq!(parse_number(b"255", 255), Some(255));
        assert_eq!(parse_number(b"256", 255), None);
        assert_eq!(parse_number(b"4294967295", u32::MAX), Some(u32::MAX));
        assert_eq!(parse_number(b"4294967296", u32::MAX), None);
        assert_eq!(parse_number(b"18446744073709551617", u32::MAX), None);
        assert_eq!(parse_number(&[b'9'; 4000], u32::MAX), None);
    }

    #[test]
    fn numbers_are_digits_only() {
        assert_eq!(parse_number(b"0000000000000000000000007", 255), Some(7));
        for word in [
            &b""[..],
            b"+7",
            b"-7",
            b"-",
            b"7.0",
            b"0x7",
            b"7\r",
            b"\xff",
        ] {
            assert_eq!(parse_number(word, 255), None, "{word:?}");
        }
    }

    #[test]
    fn hex_is_lower_case_and_even() {
        assert_eq!(hex(b"-"), Some(vec![]));
        assert_eq!(hex(b"00ff9a"), Some(vec![0x00, 0xff, 0x9a]));
        for word in [
            &b""[..],
            b"0",
            b"000",
            b"FF",
            b"fF",
            b"0g",
            b"--",
            b"-0",
            b"0/",
            b"0:",
            b"0`",
            b"00\r",
        ] {
            assert_eq!(hex(word), None, "{word:?}");
        }
    }

    #[test]
    fn every_byte_comes_back() {
        let all: Vec<u8> = (0..=255).collect();
        let mut word = Vec::new();
        push_bytes(&all, &mut word);
        assert_eq!(hex(&word), Some(all));
    }

    #[test]
    fn numbers_and_no_bytes_are_written() {
        let mut line = Vec::new();
        push_number(0, &mut line);
        line.push(b' ');
        push_number(u64::MAX, &mut line);
        line.push(b' ');
        push_bytes(&[], &mut line);
        assert_eq!(line, b"0 18446744073709551615 -");
    }

    #[test]
    fn check_starts_at_seven_and_wraps() {
        assert_eq!(check(&[]), 7);
        assert_eq!(check(&[1]), 7 * 31 + 1);
        assert_eq!(check(&[0xee, 0xee]), (7 * 31 + 0xee) * 31 + 0xee);
        let bytes: Vec<u8> = (0..1_000u32).map(|i| (i * i + 3) as u8).collect();
        let mut x = 7u64;
        for (index, &byte) in bytes.iter().enumerate() {
            assert_eq!(u64::from(check(&bytes[..index])), x);
            x = (x * 31 + u64::from(byte)) % (1 << 32);
        }
    }
}
