//! Version strings (document 01, "Control payloads") and their order.

/// A version, compared "by major, minor, patch".
#[derive(Clone, Copy, Debug, PartialEq, Eq, PartialOrd, Ord)]
pub struct ProtocolVersion {
    pub major: u8,
    pub minor: u8,
    pub patch: u8,
}

/// From here on a version is negotiated by payload.
pub const FIRST_WITH_PAYLOADS: ProtocolVersion = ProtocolVersion {
    major: 5,
    minor: 0,
    patch: 0,
};

impl ProtocolVersion {
    /// "A version string is three decimal parts of value 0 to 255, no spare
    /// zeros, major at least 1."
    pub fn parse(text: &[u8]) -> Option<Self> {
        let mut parts = text.split(|&byte| byte == b'.').map(part);
        let version = ProtocolVersion {
            major: parts.next()??,
            minor: parts.next()??,
            patch: parts.next()??,
        };
        let three = parts.next().is_none();
        (three && version.major >= 1).then_some(version)
    }

    /// The version string.
    pub fn text(&self) -> String {
        format!("{}.{}.{}", self.major, self.minor, self.patch)
    }
}

/// One decimal part; "0" has no spare zero, "00" and "04" have one.
fn part(digits: &[u8]) -> Option<u8> {
    let spare_zero = digits.len() > 1 && digits[0] == b'0';
    if digits.is_empty() || spare_zero {
        return None;
    }
    digits.iter().try_fold(0u8, |value, digit| {
        let digit = digit.is_ascii_digit().then(|| digit - b'0')?;
        value.checked_mul(10)?.checked_add(digit)
    })
}

#[cfg(test)]
mod tests {
    use super::*;

    const BAD: [&str; 34] = [
        "",
        ".",
        "..",
        "...",
        "5",
        "5.4",
        "5.4.",
        ".4.1",
        "5..1",
        "5.4.1.",
        ".5.4.1",
        "5.4.1.0",
        "5.04.1",
        "05.4.1",
        "5.4.01",
        "5.00.1",
        "5.4.00",
        "0.4.1",
        "0.0.0",
        "256.0.0",
        "5.256.0",
        "5.4.256",
        "5.4.1000",
        "5.4.99999999999999999999",
        "+5.4.1",
        "5.-4.1",
        "5.4.1 ",
        " 5.4.1",
        "5,4,1",
        "5.4.1\0",
        "5.4.\0",
        "5.4.a",
        "v5.4.1",
        "5.4.1\n",
    ];

    fn parsed(text: &str) -> Option<(u8, u8, u8)> {
        let version = ProtocolVersion::parse(text.as_bytes())?;
        assert_eq!(version.text(), text);
        Some((version.major, version.minor, version.patch))
    }

    #[test]
    fn good_strings() {
        assert_eq!(parsed("5.0.0"), Some((5, 0, 0)));
        assert_eq!(parsed("1.0.0"), Some((1, 0, 0)));
        assert_eq!(parsed("5.4.1"), Some((5, 4, 1)));
        assert_eq!(parsed("255.255.255"), Some((255, 255, 255)));
        assert_eq!(parsed("10.20.100"), Some((10, 20, 100)));
    }

    #[test]
    fn bad_strings() {
        for text in BAD {
            assert_eq!(ProtocolVersion::parse(text.as_bytes()), None, "{text:?}");
        }
        assert_eq!(ProtocolVersion::parse(b"5.4.\xff"), None);
        assert_eq!(ProtocolVersion::parse("5.4.\u{661}".as_bytes()), None);
    }

    #[test]
    fn the_order_is_by_major_minor_patch() {
        let rising = [
            "1.255.255",
            "4.255.255",
            "5.0.0",
            "5.0.1",
            "5.0.10",
            "5.1.0",
            "5.9.9",
            "5.10.0",
            "6.0.0",
        ];
        let versions = rising.map(|text| ProtocolVersion::parse(text.as_bytes()).unwrap());
        assert!(versions.is_sorted());
        assert_eq!(versions[2], FIRST_WITH_PAYLOADS);
    }
}
