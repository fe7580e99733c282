//! Whole numbers of a call, as document 01 spells them.

use std::fmt;
use std::str::FromStr;

/// A number as it was given, which is what is shown, and as it is handed on.
#[derive(Clone, Debug, PartialEq, Eq)]
pub struct Number<N> {
    pub given: String,
    /// A number past its type is the greatest of the type, which is past every limit too: it is no wrong word, and what it is given to judges it.
    pub value: N,
}

impl<N: fmt::Display> Number<N> {
    /// A number that was not given, as it would have been.
    pub fn of(value: N) -> Number<N> {
        Number { given: value.to_string(), value }
    }
}

impl<N: FromStr> Number<N> {
    /// "One or more digits with no needless leading zero".
    pub fn read(word: &str, greatest: N) -> Option<Number<N>> {
        let digits = !word.is_empty() && word.bytes().all(|byte| byte.is_ascii_digit());
        let needless = word.len() > 1 && word.starts_with('0');
        (digits && !needless).then(|| Number { given: String::from(word), value: word.parse().unwrap_or(greatest) })
    }
}

/// The digits, which are a number of JSON too.
impl<N> fmt::Display for Number<N> {
    fn fmt(&self, f: &mut fmt::Formatter) -> fmt::Result {
        f.write_str(&self.given)
    }
}

#[cfg(test)]
mod tests {
    use super::*;

    #[test]
    fn a_number_past_its_type_is_the_greatest_and_is_shown_as_it_was_given() {
        for (word, value) in
            [("0", 0), ("100", 100), ("4294967295", u32::MAX), ("4294967396", u32::MAX), ("99999999999999999999", u32::MAX)]
        {
            let number = Number::read(word, u32::MAX).unwrap();
            assert_eq!((number.value, number.to_string()), (value, String::from(word)));
        }
    }

    #[test]
    fn only_plain_digits_are_a_whole_number() {
        for word in ["", " 1", "1 ", "+1", "-0", "00", "01", "0x1", "1_0", "\u{0661}", "9999999999999999999999x"] {
            assert_eq!(Number::read(word, u32::MAX), None, "{word}");
        }
    }
}
