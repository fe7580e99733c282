//! What the block of a call says: 22 whole numbers below 2^32, one space between, padded with spaces, LF last.

use crate::rooms::ROOMS;

/// The bytes of a block with its LF.
pub const BLOCK: usize = 256;

/// Entry, H, file, place, five lengths, ten rooms, edition, set, quarter.
const NUMBERS: usize = 22;

/// Timetable, profiles, constraints, solution, second text.
pub const TEXTS: usize = 5;

// Where the numbers of texts and rooms begin.
const FIRST_LENGTH: usize = 4;
const FIRST_ROOM: usize = FIRST_LENGTH + TEXTS;

/// Where the number of the edition stands.
const EDITION: usize = FIRST_ROOM + ROOMS;

/// The numbers by their names. Set and quarter must be numbers, and no entry that is there looks at them.
#[derive(Clone, Debug, PartialEq, Eq)]
pub struct Block {
    pub entry: u32,
    pub h: u32,
    /// The file and the place of a row to be shown.
    pub file: u32,
    pub place: u32,
    /// How many bytes each text has.
    pub lengths: [usize; TEXTS],
    /// How many numbers of each room are lent, and bytes of the text.
    pub rooms: [usize; ROOMS],
    /// Any number: the library judges it, as it does H.
    pub edition: u32,
}

impl Block {
    /// The block that these bytes are, if they are one.
    pub fn of(bytes: &[u8; BLOCK]) -> Option<Block> {
        let numbers = numbers(bytes)?;
        let size = |place: usize| numbers[place] as usize;
        let [entry, h, file, place, ..] = numbers;
        let mut block = Block { entry, h, file, place, lengths: [0; TEXTS], rooms: [0; ROOMS], edition: numbers[EDITION] };
        block.lengths.iter_mut().enumerate().for_each(|(text, length)| *length = size(FIRST_LENGTH + text));
        block.rooms.iter_mut().enumerate().for_each(|(room, lent)| *lent = size(FIRST_ROOM + room));
        Some(block)
    }
}

fn numbers(bytes: &[u8; BLOCK]) -> Option<[u32; NUMBERS]> {
    let line = std::str::from_utf8(bytes.strip_suffix(b"\n")?).ok()?;
    let numbers: Vec<u32> = line.trim_end_matches(' ').split(' ').map(whole).collect::<Option<_>>()?;
    numbers.try_into().ok()
}

/// One or more digits with no needless leading zero. Rust's reader would take a plus sign and leading zeros, which the number written again has not.
fn whole(word: &str) -> Option<u32> {
    let number: u32 = word.parse().ok()?;
    (number.to_string() == word).then_some(number)
}

#[cfg(test)]
mod tests {
    use super::*;

    fn bytes(line: &str) -> [u8; BLOCK] {
        let mut bytes = line.as_bytes().to_vec();
        bytes.resize(BLOCK - 1, b' ');
        bytes.push(b'\n');
        bytes.try_into().unwrap()
    }

    fn counted(count: usize) -> String {
        (1..=count).map(|number| number.to_string()).collect::<Vec<_>>().join(" ")
    }

    #[test]
    fn each_number_has_its_name() {
        let block = Block::of(&bytes(&counted(NUMBERS))).unwrap();
        assert_eq!((block.entry, block.h, block.file, block.place), (1, 2, 3, 4));
        assert_eq!(block.lengths, [5, 6, 7, 8, 9]);
        assert_eq!(block.rooms, [10, 11, 12, 13, 14, 15, 16, 17, 18, 19]);
        assert_eq!(block.edition, 20);
    }

    #[test]
    fn the_greatest_numbers_fit() {
        let greatest = vec!["4294967295"; NUMBERS].join(" ");
        assert_eq!(Block::of(&bytes(&greatest)).unwrap().rooms, [u32::MAX as usize; ROOMS]);
    }

    #[test]
    fn what_is_no_block() {
        assert_eq!(Block::of(&bytes("")), None);
        assert_eq!(Block::of(&bytes(&counted(NUMBERS - 1))), None);
        assert_eq!(Block::of(&bytes(&counted(NUMBERS + 1))), None);
        let others = ["01", "+1", "-1", "1x", "1\t", " 1", "1 ", "", "4294967296", "18446744073709551617", "\u{661}", "1\n"];
        for other in others {
            let line = counted(NUMBERS).replacen('1', other, 1);
            assert_eq!(Block::of(&bytes(&line)), None, "{other:?}");
        }
    }

    #[test]
    fn only_spaces_after_the_last_number_and_lf_last() {
        let good = bytes(&counted(NUMBERS));
        for (place, byte) in
            [(BLOCK - 1, b' '), (BLOCK - 1, b'\r'), (BLOCK - 2, b'\n'), (BLOCK - 2, b'\t'), (BLOCK - 2, b'1'), (BLOCK - 2, 0xff)]
        {
            let mut other = good;
            other[place] = byte;
            assert_eq!(Block::of(&other), None, "{byte} at {place}");
        }
    }
}
