//! A CSV text spelled otherwise (document 02, E1): fields in quotes or not, lines ended by LF or CR LF. It says the same.

use crate::random::Random;
use independent::Case;

/// The texts of a case that are CSV.
pub const CSV: [usize; 4] = [0, 1, 3, 4];

/// How a text is spelled.
#[derive(Clone, Copy, Debug, PartialEq, Eq)]
pub enum Spelling {
    /// No quotes, LF alone.
    Plain,
    /// As a spreadsheet exports it: every field in quotes, CR LF at every line.
    Exported,
    /// Each field and each line by lot.
    Mixed,
}

/// One case in so many is plain in all its files.
const PLAIN: usize = 4;

/// The case with each CSV text in some spelling.
pub fn spell(case: &mut Case, random: &mut Random) {
    if random.one_in(PLAIN) {
        return;
    }
    for place in CSV {
        let spelling = *random.pick(&[Spelling::Plain, Spelling::Exported, Spelling::Mixed, Spelling::Mixed]);
        case.texts[place] = spelled(&case.texts[place], spelling, random);
    }
}

/// A plain text as a spreadsheet exports it.
pub fn exported(text: &[u8]) -> Vec<u8> {
    spelled(text, Spelling::Exported, &mut Random::seeded(0))
}

/// The case with every CSV text so.
pub fn all_exported(mut case: Case) -> Case {
    for place in CSV {
        case.texts[place] = exported(&case.texts[place]);
    }
    case
}

/// A plain text in another spelling; what follows its last LF stays as it is.
pub fn spelled(text: &[u8], spelling: Spelling, random: &mut Random) -> Vec<u8> {
    let mut lot = || match spelling {
        Spelling::Plain => false,
        Spelling::Exported => true,
        Spelling::Mixed => random.one_in(2),
    };
    let mut written = Vec::new();
    for line in text.split_inclusive(|byte| *byte == b'\n') {
        let row = match line {
            [row @ .., b'\n'] => row,
            rest => {
                written.extend_from_slice(rest);
                break;
            }
        };
        let fields: Vec<Vec<u8>> =
            row.split(|byte| *byte == b',').map(|field| if lot() { quoted(field) } else { field.to_vec() }).collect();
        written.extend(fields.join(&b','));
        written.extend_from_slice(if lot() { b"\r\n" } else { b"\n" });
    }
    written
}

fn quoted(field: &[u8]) -> Vec<u8> {
    [b"\"", field, b"\""].concat()
}

#[cfg(test)]
mod tests {
    use super::*;
    use crate::plan::Plan;
    use independent::Answer;

    #[test]
    fn a_spelling_by_hand() {
        let plain = b"a,b\n1,2 3\nx";
        assert_eq!(spelled(plain, Spelling::Plain, &mut Random::seeded(0)), plain);
        assert_eq!(exported(plain), b"\"a\",\"b\"\r\n\"1\",\"2 3\"\r\nx");
    }

    /// What is read does not change, and the spellings do.
    #[test]
    fn a_spelling_says_the_same() {
        let plain = Plan::of_every_kind().case();
        let tables = plain.check().tables;
        let mut random = Random::seeded(8);
        let mut seen = [0; 3];
        for _ in 0..200 {
            let mut case = plain.clone();
            spell(&mut case, &mut random);
            assert_eq!((case.check().answer, &case.check().tables), (Answer::Accepted, &tables));
            let quotes = CSV.map(|place| case.texts[place].contains(&b'"'));
            seen[quotes.iter().filter(|quoted| **quoted).count().min(2)] += 1;
        }
        assert!(seen.iter().all(|count| *count > 5), "{seen:?}");
        assert_eq!(all_exported(plain.clone()).check().tables, tables);
    }
}
