//! An answer as it is printed: in words, or as one object, which docs/schema describes.

use super::arguments::{Number, Stated};
use super::identity::identity;
use super::input::Input;
use super::json::{array, Object};
use super::output::Output;
use super::{duties, printable, refusal, tested, violation, CouldNotRun};
use std::ffi::OsStr;
use std::fmt::Display;
use wagontulip::{Answer, Counts, File, Room, Ruling, Tally, Violation, LABEL};

pub const ACCEPTED: u8 = 0;
pub const VIOLATED: u8 = 1;
pub const REFUSED: u8 = 2;
pub const COULD_NOT_RUN: u8 = 3;

/// The number of docs/schema/answer-3.json, which the tests hold every object to. A member of a command's object that is added, taken away or changed makes
/// another; the objects of a new command do not.
const SCHEMA: u32 = 3;

/// The command whose acceptance is a text.
pub const MERGE: &str = "merge";

/// What is printed, and the exit status.
pub struct Told {
    pub status: u8,
    pub text: Vec<u8>,
}

/// An answer with all that its words and its evidence need.
pub struct Judged<'a, T> {
    pub command: &'static str,
    pub stated: &'a Stated,
    pub ruling: Ruling<T>,
    pub inputs: &'a [Input],
    pub outputs: &'a [Output<'a>],
    pub room: &'a Room,
}

impl<T: Copy> Judged<'_, T> {
    /// `lines` and `values` say what an accepted answer carries, in words and as keys.
    pub fn told(&self, json: bool, lines: impl Fn(T) -> String, values: impl Fn(Object, T) -> Object) -> Result<Told, CouldNotRun> {
        let (status, word) = match self.ruling.answer {
            Answer::Accepted(_) => (ACCEPTED, "accepted"),
            Answer::Violated(_) => (VIOLATED, "violated"),
            Answer::Refused(_) => (REFUSED, "refused"),
        };
        let text = if json { self.object(word, values)? } else { format!("{LABEL}\n{}answer: {word}\n", self.words(lines)?) };
        Ok(Told { status, text: text.into_bytes() })
    }

    fn words(&self, lines: impl Fn(T) -> String) -> Result<String, CouldNotRun> {
        let mut words = match self.ruling.answer {
            Answer::Accepted(given) => accepted(&self.room.counts()) + &lines(given),
            Answer::Violated(violation) => violation::told(self.room, &violation, &self.input_of(&violation).told()),
            Answer::Refused(refusal) => refusal::told(&refusal, self.inputs)?,
        };
        for output in self.outputs {
            words.push_str(&format!("{}: {}, bytes {}\n", output.role, printable(output.path), output.text.len()));
        }
        Ok(words + &self.tested().map_or(String::new(), |tally| tested::line(&tally)))
    }

    /// How much was tested for the verdict. A refusal is none, and a merge that is written is a text.
    fn tested(&self) -> Option<Tally> {
        match self.ruling.answer {
            Answer::Accepted(_) if self.command == MERGE => None,
            Answer::Refused(_) => None,
            Answer::Accepted(_) | Answer::Violated(_) => Some(self.ruling.tally),
        }
    }

    fn input_of(&self, violation: &Violation) -> &Input {
        &self.inputs[usize::from(violation.file.number()) - 1]
    }

    fn object(&self, word: &str, values: impl Fn(Object, T) -> Object) -> Result<String, CouldNotRun> {
        let object = stated(head(Some(self.command), word), self.stated);
        let object = match self.ruling.answer {
            Answer::Accepted(given) => values(counted(object, &self.room.counts(), self.tested()), given),
            Answer::Violated(violation) => {
                let file = file_object(violation.file.number(), Some(self.input_of(&violation)));
                let object = counted(object, &self.room.counts(), self.tested());
                object.object("violation", violation::object(self.room, &violation, file))
            }
            Answer::Refused(refusal) => uncounted(object, self.ruling.tally).object("refusal", refusal::object(&refusal, self.inputs)?),
        };
        let outputs = self.outputs.iter().map(|output| evidence_of(output.role, output.name(), output.evidence()));
        Ok(line(with_evidence(object, self.inputs)?.value("outputs", array(outputs))))
    }
}

/// A row as one object: where it was looked for, by a file's number or in the one file, and the whole of it, where one starts there.
pub fn row_object(file: Option<&Number<u8>>, place: &Number<u32>, row: Option<&[u8]>, inputs: &[Input]) -> Result<String, CouldNotRun> {
    let file = match file {
        Some(file) => {
            let numbered = inputs.iter().zip([File::Timetable, File::Solution]);
            let looked_in = numbered.into_iter().find(|(_, known)| known.number().to_string() == file.given);
            file_object(whole(&file.given), looked_in.map(|(input, _)| input))
        }
        None => file_object("null", inputs.first()),
    };
    let object = head(Some("row"), "row").object("file", file).value("place", whole(&place.given));
    let object = match row {
        Some(row) => object.bytes("row", row).value("length", row.len()),
        None => object.value("row", "null"),
    };
    Ok(line(with_evidence(object, inputs)?))
}

/// That there is no answer, and why.
pub fn none_object(verb: Option<&OsStr>, why: &str) -> String {
    let command = ["check", "energy", MERGE, duties::COMMAND, "row"].into_iter().find(|command| verb == Some(OsStr::new(command)));
    let object = head(command, "none").text("reason", why);
    line(built(object))
}

pub fn line(object: Object) -> String {
    format!("{}\n", object.close())
}

/// What every object begins with.
pub fn head(command: Option<&str>, answer: &str) -> Object {
    Object::new().text("label", LABEL).value("schema", SCHEMA).optional_text("command", command).text("answer", answer)
}

fn stated(object: Object, stated: &Stated) -> Object {
    object.value("horizon", whole(&stated.horizon.given)).value("edition", whole(&stated.edition.given))
}

/// A number of the call as it was given. One past 32 bits is a text of its digits: many readers keep no number of any length.
fn whole(given: &str) -> String {
    match given.parse::<u32>() {
        Ok(number) => number.to_string(),
        Err(_) => format!("\"{given}\""),
    }
}

/// How much was read, and how much was tested, which the library alone says.
fn counted(object: Object, counts: &Counts, tally: Option<Tally>) -> Object {
    let read = Object::new()
        .value("legs", counts.legs)
        .value("configurations", counts.configurations)
        .value("profiles", counts.profiles)
        .value("samples", counts.samples)
        .value("constraints", counts.constraints)
        .value("tracks", counts.tracks);
    tested::values(object.object("read", read), tally).optional("nothing_tested", tally.map(|tally| tally.total == 0))
}

/// A refusal leaves nothing to count, and is no verdict over anything: its counts are the library's 0s.
fn uncounted(object: Object, tally: Tally) -> Object {
    tested::values(object.value("read", "null"), Some(tally)).value("nothing_tested", "null")
}

/// A file by its number, and where it is one of the inputs, what it is and its name.
pub fn file_object(number: impl Display, input: Option<&Input>) -> Object {
    let object = Object::new().value("number", number);
    match input {
        Some(input) => object.text("role", input.role).bytes("name", input.name()),
        None => object,
    }
}

/// For the release engineer's signature.
pub fn with_evidence(object: Object, inputs: &[Input]) -> Result<Object, CouldNotRun> {
    let inputs: Result<Vec<String>, CouldNotRun> =
        inputs.iter().map(|input| Ok(evidence_of(input.role, input.name(), input.evidence()?))).collect();
    Ok(built(object).value("inputs", array(inputs?.into_iter())))
}

fn evidence_of(role: &str, name: &[u8], (bytes, sha256): (u64, String)) -> String {
    Object::new().text("role", role).bytes("name", name).value("bytes", bytes).text("sha256", &sha256).close()
}

/// What gave the answer.
fn built(object: Object) -> Object {
    let identity = identity();
    let build = Object::new()
        .text("version", identity.version)
        .text("library", identity.library)
        .optional_text("commit", identity.commit)
        .text("tree", identity.tree)
        .text("toolchain", identity.toolchain)
        .text("archive_sha256", identity.archive_sha256)
        .optional_text("program_sha256", identity.program_sha256.as_deref());
    object.text("version", &format!("{} ({})", identity.version, identity.library)).object("build", build)
}

/// How much was read: an acceptance of nothing must not look like one of something.
fn accepted(counts: &Counts) -> String {
    let many = |count: usize| if count == 0 { String::from("none") } else { count.to_string() };
    let mut words = String::from("accepted: every choice is offered in the draft, and every inequality holds\n");
    words.push_str(&format!("read: legs {}, configurations {}, ", many(counts.legs), many(counts.configurations)));
    words.push_str(&format!("profiles {}, samples {}, ", many(counts.profiles), many(counts.samples)));
    words.push_str(&format!("constraints {}, tracks in subnets {}\n", many(counts.constraints), many(counts.tracks)));
    if counts.legs == 0 {
        words.push_str("there are no legs: no choice was looked at\n");
    }
    if counts.constraints == 0 {
        words.push_str("there are no constraints: no inequality was looked at\n");
    }
    words
}

#[cfg(test)]
mod tests {
    use super::*;

    #[test]
    fn a_number_is_shown_as_it_was_given() {
        let shown = ["0", "100", "4294967295", "4294967296", "9007199254740993"].map(whole);
        assert_eq!(shown, ["0", "100", "4294967295", "\"4294967296\"", "\"9007199254740993\""]);
    }

    /// What was read has no say in it.
    #[test]
    fn nothing_tested_is_what_the_library_counts() {
        let counts = Counts { legs: 1, configurations: 1, profiles: 1, samples: 1, constraints: 0, tracks: 1 };
        let nothing = Counts { legs: 0, configurations: 0, ..counts };
        let said = |counts: &Counts, tally| counted(Object::new(), counts, tally).close();
        let some = Tally { kinds: [1, 0, 0, 0, 0, 0], total: 1 };
        assert!(said(&nothing, Some(some)).ends_with(r#""tested": 1, "tally": [1, 0, 0, 0, 0, 0], "nothing_tested": false}"#));
        assert!(said(&counts, Some(Tally::default())).ends_with(r#""tested": 0, "tally": [0, 0, 0, 0, 0, 0], "nothing_tested": true}"#));
        assert!(said(&counts, None).ends_with(r#""tested": null, "tally": null, "nothing_tested": null}"#));
    }

    #[test]
    fn no_answer_has_a_reason() {
        let said = none_object(Some(OsStr::new("check")), "a: b");
        let start =
            r#"{"label": "no violation shown is not no violation", "schema": 3, "command": "check", "answer": "none", "reason": "a: b", "#;
        assert!(said.starts_with(start), "{said}");
        assert!(none_object(Some(OsStr::new("judge")), "").contains(r#""command": null, "#));
    }
}
