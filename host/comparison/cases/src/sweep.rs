//! "Any bytes in any of the files": each byte of the five texts of a good case, plain and as a spreadsheet exports them, in its turn deleted,
//! replaced, put there or the last.

use crate::damage::texts::some_byte;
use crate::plan::Plan;
use crate::random::Random;
use crate::spelling::all_exported;
use independent::Case;

/// The case of this number, and which byte of which text was damaged. Each byte comes once in a round, each round with damages of its own.
pub fn draw(random: &mut Random, number: usize) -> (String, Case) {
    let plain = Plan::of_every_kind().case();
    let length = |case: &Case| case.texts.iter().map(Vec::len).sum::<usize>();
    let quoted = all_exported(plain.clone());
    let first = length(&plain);
    let place = number % (first + length(&quoted));
    let (mut case, mut place, spelling) = if place < first { (plain, place, "") } else { (quoted, place - first, ", exported,") };
    let mut text = 0;
    while place >= case.texts[text].len() {
        place -= case.texts[text].len();
        text += 1;
    }
    let how = damage(random, &mut case.texts[text], place);
    (format!("byte {place} of text {}{spelling} {how}", text + 1), case)
}

/// One byte of a text damaged, and how.
pub fn damage(random: &mut Random, text: &mut Vec<u8>, place: usize) -> &'static str {
    match random.below(4) {
        0 => {
            text.remove(place);
            "deleted"
        }
        1 => {
            text[place] = some_byte(random);
            "replaced"
        }
        2 => {
            text.insert(place, some_byte(random));
            "put there"
        }
        _ => {
            text.truncate(place + 1);
            "the last"
        }
    }
}
