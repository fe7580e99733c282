//! Whole numbers and samples, as the CSV section of document 01 describes them.

/// "A whole number is one or more digits with no needless leading zero." Only the digits are
/// kept, so that a number may be of any length.
#[derive(Clone, Copy, Debug, PartialEq, Eq)]
pub struct Whole<'a> {
    digits: &'a [u8],
}

impl<'a> Whole<'a> {
    /// The bytes as a whole number, if they have that form.
    pub fn parse(bytes: &'a [u8]) -> Option<Whole<'a>> {
        if bytes.is_empty() || !bytes.iter().all(|byte| byte.is_ascii_digit()) {
            return None;
        }
        if bytes.len() > 1 && bytes[0] == b'0' {
            return None;
        }
        Some(Whole { digits: bytes })
    }

    /// The value, if it is not above the limit; no number of digits is too many to be judged.
    pub fn at_most(self, limit: u32) -> Option<u32> {
        let mut value: u64 = 0;
        for digit in self.digits {
            value = value * 10 + u64::from(digit - b'0');
            if value > u64::from(limit) {
                return None;
            }
        }
        Some(value as u32)
    }

    /// The value, if it lies between the two limits.
    pub fn between(self, least: u32, greatest: u32) -> Option<u32> {
        self.at_most(greatest).filter(|value| *value >= least)
    }
}

/// "Ids 0..999,999,999."
pub fn id(number: Whole) -> Option<u32> {
    number.at_most(999_999_999)
}

/// "A sample is an optional minus, a whole number, a point and one to three digits".
#[derive(Clone, Copy, Debug, PartialEq, Eq)]
pub struct Sample<'a> {
    minus: bool,
    whole: Whole<'a>,
    thousandths: u32,
}

impl<'a> Sample<'a> {
    /// The bytes as a sample, if they have that form.
    pub fn parse(bytes: &'a [u8]) -> Option<Sample<'a>> {
        let minus = bytes.first() == Some(&b'-');
        let unsigned = if minus { &bytes[1..] } else { bytes };
        let point = unsigned.iter().position(|byte| *byte == b'.')?;
        let whole = Whole::parse(&unsigned[..point])?;
        let thousandths = thousandths(&unsigned[point + 1..])?;
        Some(Sample { minus, whole, thousandths })
    }

    /// "it is read as kilowatts, so `-0.4` is -400 and `-0.0` is 0"; "A sample lies in
    /// -20.000..20.000 MW".
    pub fn kilowatts(self) -> Option<i32> {
        let megawatts = self.whole.at_most(20)?;
        let size = (megawatts * 1000 + self.thousandths) as i32;
        if size > 20_000 {
            return None;
        }
        Some(if self.minus { -size } else { size })
    }
}

/// One to three digits after the point, as thousandths: `4` is 400.
fn thousandths(digits: &[u8]) -> Option<u32> {
    if !digits.iter().all(|byte| byte.is_ascii_digit()) {
        return None;
    }
    let value = |place: usize| u32::from(digits[place] - b'0');
    match digits.len() {
        1 => Some(value(0) * 100),
        2 => Some(value(0) * 100 + value(1) * 10),
        3 => Some(value(0) * 100 + value(1) * 10 + value(2)),
        _ => None,
    }
}

#[cfg(test)]
mod tests {
    use super::*;

    #[test]
    fn whole_numbers() {
        for good in ["0", "7", "10", "4294967296", "99999999999999999999999999999999999999999"] {
            assert!(Whole::parse(good.as_bytes()).is_some(), "{good}");
        }
        for bad in ["", "00", "07", "-1", "1.0", "1e3", " 1", "1 ", "a"] {
            assert!(Whole::parse(bad.as_bytes()).is_none(), "{bad}");
        }
    }

    #[test]
    fn limits_of_whole_numbers() {
        let value = |text: &'static str| Whole::parse(text.as_bytes()).unwrap();
        assert_eq!(id(value("999999999")), Some(999_999_999));
        assert_eq!(id(value("1000000000")), None);
        assert_eq!(id(value("18446744073709551616")), None);
        assert_eq!(value("3600").between(1, 3600), Some(3600));
        assert_eq!(value("3601").between(1, 3600), None);
        assert_eq!(value("0").between(1, 3600), None);
    }

    #[test]
    fn samples() {
        let kilowatts = |text: &str| Sample::parse(text.as_bytes()).map(|s| s.kilowatts());
        assert_eq!(kilowatts("-0.4"), Some(Some(-400)));
        assert_eq!(kilowatts("-0.0"), Some(Some(0)));
        assert_eq!(kilowatts("0.5"), Some(Some(500)));
        assert_eq!(kilowatts("0.05"), Some(Some(50)));
        assert_eq!(kilowatts("0.005"), Some(Some(5)));
        assert_eq!(kilowatts("20.000"), Some(Some(20_000)));
        assert_eq!(kilowatts("20.001"), Some(None));
        assert_eq!(kilowatts("-20.0"), Some(Some(-20_000)));
        assert_eq!(kilowatts("-20.001"), Some(None));
        assert_eq!(kilowatts("99999999999999999999.0"), Some(None));
        for bad in ["0.5000", "5", ".5", "5.", "+1.0", "00.5", "--1.0", "-.5", "-", "", "1.2.3", "1.a"] {
            assert_eq!(kilowatts(bad), None, "{bad}");
        }
    }
}
