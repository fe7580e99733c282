//! A reader of JSON for the tests: what the command prints, and the schema that it is held to.

/// Numbers stay as they are spelled.
#[derive(Clone, Debug, PartialEq, Eq)]
pub enum Json {
    Null,
    Bool(bool),
    Number(String),
    Text(String),
    List(Vec<Json>),
    Object(Vec<(String, Json)>),
}

impl Json {
    /// One value and nothing after it.
    pub fn read(text: &str) -> Json {
        let mut reader = Reader { rest: text };
        let value = reader.value();
        assert_eq!(reader.blanks(), "", "after the value");
        value
    }

    pub fn member(&self, key: &str) -> Option<&Json> {
        match self {
            Json::Object(members) => members.iter().find(|(name, _)| name == key).map(|(_, value)| value),
            _ => None,
        }
    }

    /// Members of members, and elements by their numbers: `violation.legs.0`.
    pub fn at(&self, path: &str) -> &Json {
        path.split('.').fold(self, |value, key| match value {
            Json::List(list) => &list[key.parse::<usize>().unwrap()],
            other => other.member(key).unwrap_or_else(|| panic!("no {key} of {path} in {self:?}")),
        })
    }

    pub fn text(&self) -> &str {
        match self {
            Json::Text(text) => text,
            other => panic!("no text: {other:?}"),
        }
    }
}

struct Reader<'a> {
    rest: &'a str,
}

impl<'a> Reader<'a> {
    fn blanks(&mut self) -> &'a str {
        self.rest = self.rest.trim_start_matches([' ', '\n', '\t', '\r']);
        self.rest
    }

    fn takes(&mut self, word: &str) -> bool {
        let after = self.blanks().strip_prefix(word);
        self.rest = after.unwrap_or(self.rest);
        after.is_some()
    }

    fn wants(&mut self, word: &str) {
        assert!(self.takes(word), "{word} is wanted before {:.40}", self.rest);
    }

    fn value(&mut self) -> Json {
        for (word, value) in [("null", Json::Null), ("true", Json::Bool(true)), ("false", Json::Bool(false))] {
            if self.takes(word) {
                return value;
            }
        }
        if self.takes("{") {
            let members = self.several("}", Reader::a_member);
            let twice = members.iter().enumerate().find(|(place, (key, _))| members[..*place].iter().any(|(earlier, _)| earlier == key));
            assert_eq!(twice, None, "a key is given twice");
            return Json::Object(members);
        }
        if self.takes("[") {
            return Json::List(self.several("]", Reader::value));
        }
        if self.takes("\"") {
            return Json::Text(self.string());
        }
        self.number()
    }

    fn several<T>(&mut self, end: &str, one: impl Fn(&mut Self) -> T) -> Vec<T> {
        let mut all = Vec::new();
        if self.takes(end) {
            return all;
        }
        loop {
            all.push(one(self));
            if self.takes(end) {
                return all;
            }
            self.wants(",");
        }
    }

    fn a_member(&mut self) -> (String, Json) {
        self.wants("\"");
        let key = self.string();
        self.wants(":");
        (key, self.value())
    }

    fn number(&mut self) -> Json {
        let end = self.rest.find(|c: char| !matches!(c, '0'..='9' | '-' | '+' | '.' | 'e' | 'E')).unwrap_or(self.rest.len());
        let (number, rest) = self.rest.split_at(end);
        assert!(number.parse::<f64>().is_ok(), "no number: {number}");
        self.rest = rest;
        Json::Number(number.to_string())
    }

    /// What stands before the closing quote. The command escapes whatever is no printable ASCII.
    fn string(&mut self) -> String {
        let mut units = Vec::new();
        let mut chars = self.rest.chars();
        loop {
            match chars.next().expect("a text ends") {
                '"' => break,
                '\\' => units.push(escaped(&mut chars)),
                other => units.extend(other.encode_utf16(&mut [0; 2]).iter()),
            }
        }
        self.rest = chars.as_str();
        String::from_utf16(&units).unwrap()
    }
}

fn escaped(chars: &mut std::str::Chars) -> u16 {
    match chars.next() {
        Some(mark @ ('"' | '\\')) => mark as u16,
        Some('u') => {
            let digits: String = chars.by_ref().take(4).collect();
            u16::from_str_radix(&digits, 16).unwrap()
        }
        other => panic!("no escape that the command uses: {other:?}"),
    }
}
