//! "The CSV rows": the length of a text, its header, and its rows one after the other, in quotes or not (document 02, E1).

use crate::answers::Refusal;

/// "Text 67,108,864 bytes."
pub const LONGEST_TEXT: usize = 67_108_864;

/// "A text's own length comes before its contents"; number 2, place 0.
pub fn judge_length(text: &[u8], file: u32) -> Result<(), Refusal> {
    if text.len() > LONGEST_TEXT {
        return Err(Refusal { number: 2, file, place: 0 });
    }
    Ok(())
}

/// One row: where its first byte stands, its bytes without its line end, and whether the LF is there.
#[derive(Clone, Copy, Debug)]
pub struct Row<'a> {
    pub place: usize,
    pub bytes: &'a [u8],
    pub ended: bool,
}

/// The row that starts at a place, and where the next one starts.
pub fn row_from(text: &[u8], place: usize) -> (Row<'_>, usize) {
    let rest = &text[place..];
    match rest.iter().position(|byte| *byte == b'\n') {
        Some(length) => (Row { place, bytes: before_return(&rest[..length]), ended: true }, place + length + 1),
        None => (Row { place, bytes: rest, ended: false }, text.len()),
    }
}

/// "one CR just before LF is dropped": a second one stays.
fn before_return(line: &[u8]) -> &[u8] {
    match line {
        [before @ .., b'\r'] => before,
        _ => line,
    }
}

/// The rows below the header, in file order.
pub struct Rows<'a> {
    text: &'a [u8],
    at: usize,
}

impl<'a> Rows<'a> {
    /// "The headers are, exactly", and "Any CSV field, header names too, may now stand in a pair of quotes": a text whose first line does not
    /// name the columns, or has no LF, is refused with number 3, place 0.
    pub fn below(header: &str, text: &'a [u8], file: u32) -> Result<Rows<'a>, Refusal> {
        judge_length(text, file)?;
        let mut rows = Rows { text, at: 0 };
        let wanted: Vec<&[u8]> = header.split(',').map(str::as_bytes).collect();
        match rows.next() {
            Some(first) if first.ended && fields(first.bytes).as_ref() == Some(&wanted) => Ok(rows),
            _ => Err(Refusal { number: 3, file, place: 0 }),
        }
    }
}

impl<'a> Iterator for Rows<'a> {
    type Item = Row<'a>;

    fn next(&mut self) -> Option<Row<'a>> {
        if self.at >= self.text.len() {
            return None;
        }
        let (row, next) = row_from(self.text, self.at);
        self.at = next;
        Some(row)
    }
}

/// The contents of a line's fields, read from its front; none where a quote stands anywhere but first and last in its field. "Inside quotes the
/// old form rules hold, so a quote, comma or line end there is still 4": no second quote stands for one, and a comma ends the field.
pub fn fields(line: &[u8]) -> Option<Vec<&[u8]>> {
    let mut fields = Vec::new();
    let mut rest = line;
    loop {
        let (content, behind) = match rest {
            [b'"', inside @ ..] => quoted(inside)?,
            _ => plain(rest)?,
        };
        fields.push(content);
        match behind {
            [] => return Some(fields),
            [b',', next @ ..] => rest = next,
            _ => return None,
        }
    }
}

/// What stands before the closing quote, and what behind it.
fn quoted(inside: &[u8]) -> Option<(&[u8], &[u8])> {
    let end = inside.iter().position(|byte| matches!(byte, b'"' | b','))?;
    (inside[end] == b'"').then(|| (&inside[..end], &inside[end + 1..]))
}

/// What stands before the next comma, or the line's end, and the rest from there on.
fn plain(rest: &[u8]) -> Option<(&[u8], &[u8])> {
    let end = rest.iter().position(|byte| matches!(byte, b'"' | b',')).unwrap_or(rest.len());
    (rest.get(end) != Some(&b'"')).then(|| rest.split_at(end))
}

/// The parts of some bytes between the separators; there is always one more part than separators.
pub fn parts(bytes: &[u8], separator: u8) -> Vec<&[u8]> {
    bytes.split(|byte| *byte == separator).collect()
}

#[cfg(test)]
mod tests {
    use super::*;

    fn read(line: &str) -> Option<Vec<String>> {
        fields(line.as_bytes()).map(|fields| fields.iter().map(|field| String::from_utf8_lossy(field).to_string()).collect())
    }

    #[test]
    fn a_field_stands_in_one_pair_or_in_none() {
        for (line, contents) in [
            ("", vec![""]),
            ("a", vec!["a"]),
            ("\"a\"", vec!["a"]),
            ("a,\"b\"", vec!["a", "b"]),
            ("\"a b\",c", vec!["a b", "c"]),
            ("\"\",", vec!["", ""]),
            (",\"\"", vec!["", ""]),
            ("\"\r\"", vec!["\r"]),
        ] {
            assert_eq!(read(line), Some(contents.into_iter().map(String::from).collect()), "{line:?}");
        }
        for line in [
            "\"",
            "a\"",
            "\"a",
            "\"a\"b",
            "a\"b\"",
            "\"a\"\"b\"",
            "\"\"a\"\"",
            "\"\"\"",
            "\"a,b\"",
            "\"a\" ,b",
            " \"a\"",
            "\"a\"\r",
            "a,\"b",
        ] {
            assert_eq!(read(line), None, "{line:?}");
        }
    }

    #[test]
    fn one_return_goes_with_the_line_feed() {
        let shown = |text: &'static str| row_from(text.as_bytes(), 0).0.bytes;
        assert_eq!(shown("a\n"), b"a");
        assert_eq!(shown("a\r\nb"), b"a");
        assert_eq!(shown("a\r\r\n"), b"a\r");
        assert_eq!(shown("a\r"), b"a\r");
        assert_eq!(shown("\r\n"), b"");
        assert_eq!(shown(""), b"");
    }
}
