//! Holds a value to a schema: the words of JSON Schema, draft 7, that docs/schema uses. A word that is not known here fails, so that none goes unseen.

use super::json::Json;

pub struct Schema(Json);

/// Which member of the value breaks which rule.
type Judged = Result<(), String>;

impl Schema {
    pub fn read(text: &str) -> Schema {
        Schema(Json::read(text))
    }

    pub fn judge(&self, value: &Json) -> Judged {
        self.holds(&self.0, value)
    }

    fn holds(&self, rules: &Json, value: &Json) -> Judged {
        let members = match rules {
            Json::Object(members) => members,
            other => panic!("no schema: {other:?}"),
        };
        members.iter().try_for_each(|(word, rule)| self.rule(rules, word, rule, value))
    }

    fn rule(&self, rules: &Json, word: &str, rule: &Json, value: &Json) -> Judged {
        let kept = match word {
            "$schema" | "title" | "description" | "definitions" => true,
            "$ref" => return self.holds(self.named(rule.text()), value),
            "oneOf" => return self.one_of(rule, value),
            "properties" => return self.properties(rule, value),
            "items" => return list(value).iter().try_for_each(|element| self.holds(rule, element)),
            "const" => rule == value,
            "enum" => list(rule).contains(value),
            "type" => matches!(rule, Json::Text(_)) && is(rule, value) || list(rule).iter().any(|one| is(one, value)),
            "required" => !matches!(value, Json::Object(_)) || list(rule).iter().all(|key| value.member(key.text()).is_some()),
            "additionalProperties" => {
                *rule == Json::Bool(false) && keys(value).iter().all(|key| rules.at("properties").member(key).is_some())
            }
            _ => within(word, rule, value),
        };
        if kept {
            return Ok(());
        }
        Err(format!("{word} is not kept"))
    }

    /// `#/definitions/name`.
    fn named(&self, path: &str) -> &Json {
        self.0.at(&path.trim_start_matches("#/").replace('/', "."))
    }

    fn one_of(&self, rules: &Json, value: &Json) -> Judged {
        let broken: Vec<String> = list(rules).iter().filter_map(|rules| self.holds(rules, value).err()).collect();
        match list(rules).len() - broken.len() {
            1 => Ok(()),
            many => Err(format!("{many} of these hold ({})", broken.join(", "))),
        }
    }

    fn properties(&self, rules: &Json, value: &Json) -> Judged {
        keys(value).iter().try_for_each(|key| match (rules.member(key), value.member(key)) {
            (Some(rules), Some(value)) => self.holds(rules, value).map_err(|why| format!("{key}: {why}")),
            _ => Ok(()),
        })
    }
}

/// The elements; none of what is no list.
fn list(value: &Json) -> &[Json] {
    match value {
        Json::List(list) => list,
        _ => &[],
    }
}

fn keys(value: &Json) -> Vec<&str> {
    match value {
        Json::Object(members) => members.iter().map(|(key, _)| key.as_str()).collect(),
        _ => Vec::new(),
    }
}

fn is(name: &Json, value: &Json) -> bool {
    match (name.text(), value) {
        ("integer", Json::Number(number)) => !number.contains(['.', 'e', 'E']),
        ("object", Json::Object(_)) | ("array", Json::List(_)) | ("string", Json::Text(_)) => true,
        ("number", Json::Number(_)) | ("boolean", Json::Bool(_)) | ("null", Json::Null) => true,
        _ => false,
    }
}

/// A limit says nothing about a value of another type.
fn within(word: &str, limit: &Json, value: &Json) -> bool {
    let limit = match limit {
        Json::Number(number) => number.parse::<f64>().unwrap(),
        other => panic!("no limit of {word}: {other:?}"),
    };
    match (word, value) {
        ("minimum", Json::Number(number)) => number.parse::<f64>().unwrap() >= limit,
        ("maximum", Json::Number(number)) => number.parse::<f64>().unwrap() <= limit,
        ("minLength", Json::Text(text)) => text.chars().count() as f64 >= limit,
        ("maxLength", Json::Text(text)) => text.chars().count() as f64 <= limit,
        ("minItems", Json::List(list)) => list.len() as f64 >= limit,
        ("maxItems", Json::List(list)) => list.len() as f64 <= limit,
        ("minimum" | "maximum" | "minLength" | "maxLength" | "minItems" | "maxItems", _) => true,
        _ => panic!("a word that is not known here: {word}"),
    }
}
