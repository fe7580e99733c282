//! The yardstick: the checker as one writes it by hand in plain, safe Rust for speed, a byte at a time but for the names in the JSON. It fills the same
//! tables as the proved one. The CSV readers keep every rule of a row and say what they refuse; the rest is for good files and only says that it stopped.

pub mod clock;
pub mod constraints;
pub mod energy;
pub mod ids;
pub mod profiles;
pub mod solution;
pub mod timetable;
pub mod verdict;
pub mod whole;

/// What a reading says: two counts, or the number and place of the first refusal.
#[derive(Clone, Copy, Debug, PartialEq, Eq)]
pub enum Said {
    Read(u32, u32),
    Refused(u8, u32),
}

pub const TOO_LONG: u8 = 2;
pub const HEADER: u8 = 3;
pub const FORM: u8 = 4;
pub const RANGE: u8 = 5;
pub const COUNT: u8 = 6;
pub const SEEN: u8 = 7;
pub const NOMINAL: u8 = 8;
pub const ROOM: u8 = 16;

pub const MOST_TEXT: usize = 67_108_864;
pub const MOST_ID: u32 = 999_999_999;

/// How many numbers an entry of a table has.
pub const LEG: usize = 8;
pub const CONFIGURATION: usize = 3;
pub const PROFILE: usize = 3;
pub const CONSTRAINT: usize = 6;
pub const TRACK: usize = 2;

/// A number of ten digits or more is past every limit.
const TOO_GREAT: u32 = u32::MAX;

/// A text and how far it is read.
pub struct Bytes<'a> {
    text: &'a [u8],
    at: usize,
}

impl<'a> Bytes<'a> {
    /// A text that is not too long, behind its header, whose names may stand in quotes.
    fn behind(text: &'a [u8], names: &str) -> Result<Bytes<'a>, Said> {
        if text.len() > MOST_TEXT {
            return Err(Said::Refused(TOO_LONG, 0));
        }
        let mut bytes = Bytes { text, at: 0 };
        bytes.header(names).ok_or(Said::Refused(HEADER, 0))?;
        Ok(bytes)
    }

    fn header(&mut self, names: &str) -> Option<()> {
        let mut byte = b',';
        for name in names.split(',') {
            if byte != b',' {
                return None;
            }
            let quoted = self.quote();
            self.at += self.text[self.at..].starts_with(name.as_bytes()).then_some(name.len())?;
            byte = self.behind_field(quoted)?;
        }
        self.ends(byte).then_some(())
    }

    /// Whether a quote stands here; it is passed.
    #[inline(always)]
    fn quote(&mut self) -> bool {
        let is_there = self.text.get(self.at) == Some(&b'"');
        self.at += usize::from(is_there);
        is_there
    }

    /// The byte behind a field, or behind its closing quote.
    #[inline(always)]
    fn behind_field(&mut self, quoted: bool) -> Option<u8> {
        let byte = self.next()?;
        self.behind_quote(byte, quoted)
    }

    /// The same where that byte has been read, which is the quote of a quoted field.
    #[inline(always)]
    fn behind_quote(&mut self, byte: u8, quoted: bool) -> Option<u8> {
        match (quoted, byte) {
            (false, byte) => Some(byte),
            (true, b'"') => self.next(),
            _ => None,
        }
    }

    /// Whether the line ends with this byte, LF or a CR before it.
    #[inline(always)]
    fn ends(&mut self, byte: u8) -> bool {
        byte == b'\n' || byte == b'\r' && self.next() == Some(b'\n')
    }

    /// A field that is a whole number, and the comma behind it.
    #[inline(always)]
    fn number_field(&mut self) -> Option<u32> {
        let quoted = self.quote();
        let value = self.whole()?;
        (self.behind_field(quoted)? == b',').then_some(value)
    }

    #[inline(always)]
    fn digit(&self) -> Option<u32> {
        let digit = self.text.get(self.at)?.wrapping_sub(b'0');
        (digit < 10).then_some(u32::from(digit))
    }

    /// The digits of a whole number. A zero stands alone: what follows it must be the separator.
    #[inline(always)]
    fn whole(&mut self) -> Option<u32> {
        let first = self.at;
        let mut value = self.digit()?;
        self.at += 1;
        if value == 0 {
            return Some(0);
        }
        while let Some(digit) = self.digit() {
            value = value.wrapping_mul(10).wrapping_add(digit);
            self.at += 1;
        }
        Some(if self.at - first < 10 { value } else { TOO_GREAT })
    }

    #[inline(always)]
    fn next(&mut self) -> Option<u8> {
        let byte = *self.text.get(self.at)?;
        self.at += 1;
        Some(byte)
    }

    /// A whole number and the separator behind it.
    #[inline(always)]
    fn closed(&mut self, separator: u8) -> Option<u32> {
        let value = self.whole()?;
        (self.next()? == separator).then_some(value)
    }

    /// A whole number and whatever byte is behind it.
    #[inline(always)]
    fn open(&mut self) -> Option<(u32, u8)> {
        let value = self.whole()?;
        Some((value, self.next()?))
    }
}
