//! The tokens of `constraints.json`: "A string is one token, and so is a run of other bytes up to
//! white space, a quote or one of `{}[]:,`".

/// One token.
#[derive(Clone, Copy, Debug, PartialEq, Eq)]
pub enum Token<'a> {
    /// One of `{}[]:,`.
    Sign(u8),
    /// A closed string of bytes 32 to 126 without backslashes; the bytes between its quotes.
    Text(&'a [u8]),
    /// "a string with a forbidden byte is at fault at its quote, even if unclosed".
    Spoiled,
    /// A string without a forbidden byte that the text's end leaves unclosed.
    Unclosed,
    /// A run of other bytes.
    Run(&'a [u8]),
    /// The text's end.
    End,
}

/// A token and the place of its first byte; the end stands at the text's length.
#[derive(Clone, Copy, Debug, PartialEq, Eq)]
pub struct Placed<'a> {
    pub token: Token<'a>,
    pub place: usize,
}

/// The tokens of a text, one after the other.
pub struct Tokens<'a> {
    text: &'a [u8],
    at: usize,
}

impl<'a> Tokens<'a> {
    pub fn of(text: &'a [u8]) -> Tokens<'a> {
        Tokens { text, at: 0 }
    }

    /// The length of the text.
    pub fn length(&self) -> usize {
        self.text.len()
    }

    /// The next token; at the text's end, the end again and again.
    pub fn take(&mut self) -> Placed<'a> {
        while self.at < self.text.len() && is_white(self.text[self.at]) {
            self.at += 1;
        }
        let place = self.at;
        let token = match self.text.get(place) {
            None => Token::End,
            Some(b'"') => self.string(),
            Some(&byte) if is_sign(byte) => {
                self.at += 1;
                Token::Sign(byte)
            }
            Some(_) => self.run(),
        };
        Placed { token, place }
    }

    /// A string, from its quote on.
    fn string(&mut self) -> Token<'a> {
        let start = self.at + 1;
        let mut end = start;
        while end < self.text.len() {
            let byte = self.text[end];
            if byte == b'"' {
                self.at = end + 1;
                return Token::Text(&self.text[start..end]);
            }
            if is_forbidden(byte) {
                self.at = self.text.len();
                return Token::Spoiled;
            }
            end += 1;
        }
        self.at = end;
        Token::Unclosed
    }

    /// A run, up to white space, a quote, a sign or the end.
    fn run(&mut self) -> Token<'a> {
        let start = self.at;
        while self.at < self.text.len() && is_run_byte(self.text[self.at]) {
            self.at += 1;
        }
        Token::Run(&self.text[start..self.at])
    }
}

/// The white space of RFC 8259: space, tab, LF, CR.
fn is_white(byte: u8) -> bool {
    byte == b' ' || byte == b'\t' || byte == b'\n' || byte == b'\r'
}

/// The structural characters of RFC 8259.
fn is_sign(byte: u8) -> bool {
    b"{}[]:,".contains(&byte)
}

/// "strings of bytes 32 to 126 without backslashes".
fn is_forbidden(byte: u8) -> bool {
    !(32..=126).contains(&byte) || byte == b'\\'
}

/// "a run of other bytes".
fn is_run_byte(byte: u8) -> bool {
    !is_white(byte) && !is_sign(byte) && byte != b'"'
}

#[cfg(test)]
mod tests {
    use super::*;

    fn all(text: &[u8]) -> Vec<(Token<'_>, usize)> {
        let mut tokens = Tokens::of(text);
        let mut list = Vec::new();
        loop {
            let placed = tokens.take();
            list.push((placed.token, placed.place));
            if placed.token == Token::End || placed.token == Token::Spoiled {
                return list;
            }
        }
    }

    #[test]
    fn signs_strings_and_runs() {
        assert_eq!(
            all(b" {\"a b\":12abc\"x\"\t-1]"),
            vec![
                (Token::Sign(b'{'), 1),
                (Token::Text(b"a b"), 2),
                (Token::Sign(b':'), 7),
                (Token::Run(b"12abc"), 8),
                (Token::Text(b"x"), 13),
                (Token::Run(b"-1"), 17),
                (Token::Sign(b']'), 19),
                (Token::End, 20),
            ]
        );
    }

    #[test]
    fn strings_at_fault() {
        assert_eq!(all(b"\"a\\\""), vec![(Token::Spoiled, 0)]);
        assert_eq!(all(b"  \"a\x1f"), vec![(Token::Spoiled, 2)]);
        assert_eq!(all(b"\"\x7f\""), vec![(Token::Spoiled, 0)]);
        assert_eq!(all(b"\"abc"), vec![(Token::Unclosed, 0), (Token::End, 4)]);
        assert_eq!(all(b"\"~ \""), vec![(Token::Text(b"~ "), 0), (Token::End, 4)]);
    }

    #[test]
    fn runs_hold_every_other_byte() {
        assert_eq!(all(b"\x00\xff\x0b1,"), vec![
            (Token::Run(b"\x00\xff\x0b1"), 0),
            (Token::Sign(b','), 4),
            (Token::End, 5),
        ]);
    }
}
