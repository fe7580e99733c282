//! A refusal, in words and as one object: the file, the line with its number, the place, and the row.

use super::escaped;
use super::input::Input;
use super::json::Object;
use super::told::file_object;
use wagontulip::{row_at, File, Refusal, Unknown};

/// A line may be a whole text: more is cut.
const SHOWN: usize = 160;

/// The inputs are in the order of document 01's file numbers, from 1; a duty file is the only one of its call.
fn input(file: File, inputs: &[Input]) -> Option<&Input> {
    match file {
        File::None => None,
        File::Duties => inputs.first(),
        file => Some(&inputs[usize::from(file.number()) - 1]),
    }
}

/// The lines of a refusal.
pub fn told(refusal: &Refusal, inputs: &[Input]) -> Result<String, Unknown> {
    let head = format!("refused {}: {}\nfile: ", refusal.reason.number(), refusal.meaning());
    let input = match input(refusal.file, inputs) {
        None => return Ok(format!("{head}no file, place: {}\n", refusal.place)),
        Some(input) => input,
    };
    let place = refusal.place as usize;
    let head = format!("{head}{}, place: {place}", input.told());
    if place >= input.text.len() {
        return Ok(format!("{head}, the end of the text\n"));
    }
    let line = Line::at(&input.text, place);
    let shown = row(refusal, &input.text)?.map_or_else(|| line.about(), |row| row.shown("row"));
    Ok(format!("{head}, line: {}\n{shown}", line.number))
}

/// The same as one object: where it is, then what it means and what is shown of it.
pub fn object(refusal: &Refusal, inputs: &[Input]) -> Result<Object, Unknown> {
    let input = input(refusal.file, inputs);
    let file = file_object(refusal.file.number(), input);
    let object = Object::new().value("number", refusal.reason.number()).object("file", file).value("place", refusal.place);
    let place = refusal.place as usize;
    let meaning = refusal.meaning();
    let text = match input {
        None => return Ok(object.text("meaning", meaning)),
        Some(input) if place >= input.text.len() => return Ok(object.value("end_of_text", true).text("meaning", meaning)),
        Some(input) => &input.text,
    };
    let line = Line::at(text, place);
    let object = object.value("line", line.number);
    Ok(match row(refusal, text)? {
        Some(row) => row.object(object.text("meaning", meaning)),
        None => line.object(object.value("column", line.byte).text("meaning", meaning)),
    })
}

/// A CSV row is cut out by the library, which knows a draft and a solution: any CSV text may stand for either.
fn row<'a>(refusal: &Refusal, text: &'a [u8]) -> Result<Option<Row<'a>>, Unknown> {
    match refusal.file {
        File::Constraints => Ok(None),
        _ => Ok(row_at(text, &[], File::Timetable.number(), refusal.place)?.map(Row)),
    }
}

/// A CSV row as it is shown: the first bytes of a long one.
pub struct Row<'a>(pub &'a [u8]);

impl Row<'_> {
    pub fn shown(&self, name: &str) -> String {
        let Row(row) = self;
        if row.len() <= SHOWN {
            return format!("{name}: {}\n", escaped(row));
        }
        format!("{name}, the first {SHOWN} of its {} bytes: {}\n", row.len(), escaped(&row[..SHOWN]))
    }

    pub fn object(&self, object: Object) -> Object {
        let Row(row) = self;
        object.bytes("row", &row[..row.len().min(SHOWN)]).value("length", row.len())
    }
}

/// The line that holds a place, without its line end, LF or CR LF; both counts from 1.
struct Line<'a> {
    number: usize,
    byte: usize,
    bytes: &'a [u8],
}

impl Line<'_> {
    fn at(text: &[u8], place: usize) -> Line<'_> {
        let start = text[..place].iter().rposition(|byte| *byte == b'\n').map_or(0, |feed| feed + 1);
        let end = text[place..].iter().position(|byte| *byte == b'\n').map_or(text.len(), |length| place + length);
        let end = end - usize::from(end < text.len() && text[..end].ends_with(b"\r"));
        let number = 1 + text[..place].iter().filter(|byte| **byte == b'\n').count();
        Line { number, byte: place - start + 1, bytes: &text[start..end] }
    }

    /// From where and up to where the line is shown: whole, or of a long one the bytes about the place.
    fn shown(&self) -> (usize, usize) {
        let first = if self.bytes.len() > SHOWN { self.byte.saturating_sub(SHOWN / 2) } else { 0 };
        (first, self.bytes.len().min(first + SHOWN))
    }

    fn object(&self, object: Object) -> Object {
        let (first, last) = self.shown();
        object.bytes("text", &self.bytes[first..last]).value("text_from", first + 1).value("length", self.bytes.len())
    }

    /// What is shown of the line, and below it where the place is.
    fn about(&self) -> String {
        let (first, last) = self.shown();
        let head = if first > 0 { format!("text, from byte {} of the line: ", first + 1) } else { String::from("text: ") };
        let before = escaped(&self.bytes[first..self.byte - 1]);
        let mark = head.len() + before.len();
        format!("{head}{before}{}\n{:mark$}^\n", escaped(&self.bytes[self.byte - 1..last]), "")
    }
}

#[cfg(test)]
mod tests {
    use super::*;

    #[test]
    fn a_line_and_its_number() {
        let text = b"ab\n\ncde";
        let at = |place| {
            let line = Line::at(text, place);
            (line.number, line.byte, line.bytes)
        };
        assert_eq!(at(0), (1, 1, &b"ab"[..]));
        assert_eq!(at(2), (1, 3, &b"ab"[..]));
        assert_eq!(at(3), (2, 1, &b""[..]));
        assert_eq!(at(5), (3, 2, &b"cde"[..]));
    }

    /// One CR goes with its LF; another, or one where the text ends, is seen.
    #[test]
    fn a_line_ends_before_its_return() {
        let about = |text: &[u8], place| Line::at(text, place).about();
        assert_eq!(about(b"ab\r\ncd", 0), "text: ab\n      ^\n");
        assert_eq!(about(b"ab\r\r\ncd", 1), "text: ab\\x0d\n       ^\n");
        assert_eq!(about(b"ab\r", 0), "text: ab\\x0d\n      ^\n");
        assert_eq!(about(b"\r\ncd", 0), "text: \n      ^\n");
        assert_eq!(Line::at(b"\"a\"\r\n", 0).object(Object::new()).close(), r#"{"text": "\"a\"", "text_from": 1, "length": 3}"#);
    }

    /// From where it is shown, how many bytes, and where the mark stands among them.
    #[test]
    fn a_long_line_is_cut_about_the_place() {
        let about = |length: usize, place: usize| {
            let said = Line::at(&vec![b'x'; length], place).about();
            let (line, mark) = said.split_once('\n').unwrap();
            let (head, shown) = line.split_once(": ").unwrap();
            (head.to_string(), shown.len(), mark.find('^').unwrap() - head.len() - 2)
        };
        assert_eq!(about(1_000, 500), (String::from("text, from byte 422 of the line"), SHOWN, SHOWN / 2 - 1));
        assert_eq!(about(1_000, 999), (String::from("text, from byte 921 of the line"), SHOWN / 2, SHOWN / 2 - 1));
        assert_eq!(about(1_000, 3), (String::from("text"), SHOWN, 3));
        assert_eq!(about(SHOWN, 130), (String::from("text"), SHOWN, 130));
    }

    #[test]
    fn a_long_line_is_cut_in_its_object() {
        let line = [&[b'x'; 500][..], b"\xff", &[b'x'; 499]].concat();
        let said = Line::at(&line, 500).object(Object::new()).close();
        assert!(said.starts_with(r#"{"text_bytes": "xx"#) && said.contains(r"x\u00ffx"), "{said}");
        assert!(said.ends_with(r#"xx", "text_from": 422, "length": 1000}"#), "{said}");
        assert_eq!(Line::at(b"ab\n", 1).object(Object::new()).close(), r#"{"text": "ab", "text_from": 1, "length": 2}"#);
    }

    #[test]
    fn a_long_row_is_cut() {
        assert_eq!(Row(b"ab\xff").shown("row"), "row: ab\\xff\n");
        let said = Row(&[b'x'; 1_000]).shown("row before");
        assert!(said.starts_with("row before, the first 160 of its 1000 bytes: xxx") && said.ends_with("x\n"), "{said}");
    }
}
