//! Calls for a row to be shown: any file number and any place, most often near a row's first byte.

use crate::draw::damaged;
use crate::plan::Scale;
use crate::random::Random;
use crate::target::Target;
use independent::{Call, Case, Entry};

/// Any answer will do: the texts only have to be damaged in many ways.
const ANY: Target = Target::Refused { number: 4, file: 1 };

pub fn draw(random: &mut Random) -> Call {
    let mut case = damaged(random, ANY, false, Scale::Small);
    if random.one_in(2) {
        empty_line(&mut case, random);
    }
    let file = *random.pick(&[1, 1, 1, 1, 1, 4, 4, 4, 4, 4, 0, 2, 3, 5, 255, 257, 260]);
    let text = if file == 4 { &case.texts[3] } else { &case.texts[0] };
    let place = place_near_a_row(random, text);
    Call { entry: Entry::Row, case, file, place }
}

/// One LF more, in the draft or in the solution.
fn empty_line(case: &mut Case, random: &mut Random) {
    let text = &mut case.texts[*random.pick(&[0, 3])];
    let ends: Vec<usize> = (0..text.len()).filter(|place| text[*place] == b'\n').collect();
    if !ends.is_empty() {
        text.insert(*random.pick(&ends), b'\n');
    }
}

fn place_near_a_row(random: &mut Random, text: &[u8]) -> u32 {
    let starts: Vec<usize> = (0..text.len()).filter(|place| text[*place] == b'\n').map(|end| end + 1).collect();
    let place = match random.below(8) {
        0 => random.below(text.len() + 2),
        1 => *random.pick(&[0, 1, text.len(), text.len() + 1, u32::MAX as usize]),
        2 if !starts.is_empty() => random.pick(&starts) + 1,
        3 if !starts.is_empty() => random.pick(&starts) - 1,
        _ if !starts.is_empty() => *random.pick(&starts),
        _ => 0,
    };
    place as u32
}
