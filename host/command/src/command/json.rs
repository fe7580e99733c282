//! One JSON object, key by key.

use std::fmt::{Display, Write};

pub struct Object(String);

impl Object {
    pub fn new() -> Object {
        Object(String::from("{"))
    }

    /// A value that is JSON already: a number, an array, `true`.
    pub fn value(mut self, key: &str, value: impl Display) -> Object {
        let comma = if self.0.len() > 1 { ", " } else { "" };
        // Writing to a string cannot fail.
        let _ = write!(self.0, "{comma}{}: {value}", string(key));
        self
    }

    pub fn text(self, key: &str, text: &str) -> Object {
        self.value(key, string(text))
    }

    /// Bytes that are UTF-8 are a text; others stand under a key of their own, which ends in `_bytes`, where each byte is the character of its number. So no
    /// two are spelled alike.
    pub fn bytes(self, key: &str, bytes: &[u8]) -> Object {
        match std::str::from_utf8(bytes) {
            Ok(text) => self.text(key, text),
            Err(_) => self.text(&format!("{key}_bytes"), &bytes.iter().map(|byte| char::from(*byte)).collect::<String>()),
        }
    }

    pub fn object(self, key: &str, object: Object) -> Object {
        self.value(key, object.close())
    }

    pub fn texts<'a>(self, key: &str, texts: impl Iterator<Item = &'a str>) -> Object {
        self.value(key, array(texts.map(string)))
    }

    /// What there may be none of.
    pub fn optional(self, key: &str, value: Option<impl Display>) -> Object {
        match value {
            Some(value) => self.value(key, value),
            None => self.value(key, "null"),
        }
    }

    pub fn optional_text(self, key: &str, text: Option<&str>) -> Object {
        self.optional(key, text.map(string))
    }

    pub fn close(mut self) -> String {
        self.0.push('}');
        self.0
    }
}

pub fn array(values: impl Iterator<Item = String>) -> String {
    format!("[{}]", values.collect::<Vec<String>>().join(", "))
}

/// In printable ASCII alone, so that a terminal shows it as it is.
fn string(text: &str) -> String {
    let mut spelled = String::from("\"");
    for unit in text.encode_utf16() {
        match char::from_u32(unit.into()) {
            Some(mark @ ('"' | '\\')) => spelled.extend(['\\', mark]),
            Some(shown @ ' '..='~') => spelled.push(shown),
            _ => {
                let _ = write!(spelled, "\\u{unit:04x}");
            }
        }
    }
    spelled.push('"');
    spelled
}

#[cfg(test)]
mod tests {
    use super::*;

    #[test]
    fn an_object_is_spelled() {
        let object =
            Object::new().text("a\"b", "c\\d\ne").value("n", -3).value("l", array([String::from("1"), String::from("2")].into_iter()));
        assert_eq!(object.close(), r#"{"a\"b": "c\\d\u000ae", "n": -3, "l": [1, 2]}"#);
        assert_eq!(Object::new().close(), "{}");
        let object = Object::new().object("o", Object::new().value("n", 1)).texts("t", ["a", "b"].into_iter());
        let object = object.optional("some", Some(2)).optional("none", None::<u8>).optional_text("text", Some("c"));
        assert_eq!(object.close(), r#"{"o": {"n": 1}, "t": ["a", "b"], "some": 2, "none": null, "text": "c"}"#);
    }

    /// U+FFFD, which stands for a byte that is no UTF-8 elsewhere, is a text as any, and so is what a byte is spelled as.
    #[test]
    fn no_two_names_are_spelled_alike() {
        let spelled = |bytes: &[u8]| Object::new().bytes("name", bytes).close();
        assert_eq!(spelled("a\u{fffd}".as_bytes()), r#"{"name": "a\ufffd"}"#);
        assert_eq!(spelled(b"a\xff"), r#"{"name_bytes": "a\u00ff"}"#);
        assert_eq!(spelled("a\u{ff}".as_bytes()), r#"{"name": "a\u00ff"}"#);
        assert_eq!(spelled(b"\xc3\xbf\xff"), r#"{"name_bytes": "\u00c3\u00bf\u00ff"}"#);
        assert_eq!(spelled(br"a\u00ff"), r#"{"name": "a\\u00ff"}"#);
    }

    #[test]
    fn a_string_is_printable() {
        assert_eq!(string(" ~\x1b\x7f\u{9b}é\u{202e}\u{1f687}"), r#"" ~\u001b\u007f\u009b\u00e9\u202e\ud83d\ude87""#);
    }
}
