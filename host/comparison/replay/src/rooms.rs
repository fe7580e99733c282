//! The ten rooms that are lent to the library, and their digests.

use crate::failure::Failure;

/// Legs, configurations, profiles, samples, constraints, tracks, choices, second choices, curves, text.
pub const ROOMS: usize = 10;

/// A number of a room.
pub trait Number: Copy {
    /// What every lent room is full of before a call.
    const BEFORE: Self;

    /// The number as a digest takes it.
    fn unsigned(self) -> u32;
}

impl Number for u32 {
    const BEFORE: u32 = 7;

    fn unsigned(self) -> u32 {
        self
    }
}

impl Number for i32 {
    const BEFORE: i32 = 7;

    fn unsigned(self) -> u32 {
        self as u32
    }
}

impl Number for u8 {
    const BEFORE: u8 = 7;

    fn unsigned(self) -> u32 {
        u32::from(self)
    }
}

/// The rooms as the library sees them: each vector is as long as its room is lent. Their memory is kept for the next call.
#[derive(Default)]
pub struct Rooms {
    pub legs: Vec<u32>,
    pub configurations: Vec<u32>,
    pub profiles: Vec<u32>,
    pub samples: Vec<i32>,
    pub constraints: Vec<u32>,
    pub tracks: Vec<u32>,
    pub choices: Vec<u32>,
    pub second_choices: Vec<u32>,
    pub curves: Vec<i32>,
    pub text: Vec<u8>,
}

impl Rooms {
    /// Rooms of these sizes, full of 7. What is past them is not touched, so that small calls stay cheap after a large one.
    pub fn lend(&mut self, sizes: &[usize; ROOMS]) -> Result<(), Failure> {
        let [legs, configurations, profiles, samples, constraints, tracks, choices, second_choices, curves, text] = *sizes;
        fill(&mut self.legs, legs, "the room of legs")?;
        fill(&mut self.configurations, configurations, "the room of configurations")?;
        fill(&mut self.profiles, profiles, "the room of profiles")?;
        fill(&mut self.samples, samples, "the room of samples")?;
        fill(&mut self.constraints, constraints, "the room of constraints")?;
        fill(&mut self.tracks, tracks, "the room of tracks")?;
        fill(&mut self.choices, choices, "the room of choices")?;
        fill(&mut self.second_choices, second_choices, "the room of second choices")?;
        fill(&mut self.curves, curves, "the room of curves")?;
        fill(&mut self.text, text, "the room of text")
    }

    /// The digests of the whole rooms in their order, also of those that the entry does not take.
    pub fn digests(&self) -> [u32; ROOMS] {
        [
            digest(&self.legs),
            digest(&self.configurations),
            digest(&self.profiles),
            digest(&self.samples),
            digest(&self.constraints),
            digest(&self.tracks),
            digest(&self.choices),
            digest(&self.second_choices),
            digest(&self.curves),
            digest(&self.text),
        ]
    }
}

/// A room that is too small is given back before a larger one is asked for, since nothing in it is wanted.
fn fill<N: Number>(room: &mut Vec<N>, size: usize, name: &'static str) -> Result<(), Failure> {
    if room.capacity() < size {
        *room = Vec::new();
    }
    room.clear();
    room.try_reserve_exact(size).map_err(Failure::no_memory(name))?;
    room.resize(size, N::BEFORE);
    Ok(())
}

/// The factor of a digest.
const FACTOR: u32 = 31;

/// d = 0, then d = (d × 31 + the number) mod 2^32.
pub fn digest<N: Number>(numbers: &[N]) -> u32 {
    numbers.iter().fold(0, |digest: u32, number| digest.wrapping_mul(FACTOR).wrapping_add(number.unsigned()))
}

#[cfg(test)]
mod tests {
    use super::*;

    #[test]
    fn digests_by_hand() {
        assert_eq!(digest::<u8>(&[]), 0);
        assert_eq!(digest(&[1u8, 2]), 33);
        assert_eq!(digest(&[u32::MAX, 1]), 4_294_967_266);
        assert_eq!(digest(&[-1i32, 1]), 4_294_967_266);
    }

    #[test]
    fn a_room_is_full_of_7_whatever_stood_in_it() {
        let mut rooms = Rooms::default();
        for size in [5, 100, 3, 0, 100] {
            rooms.lend(&[size; ROOMS]).unwrap();
            assert_eq!((&rooms.legs, &rooms.curves, &rooms.text), (&vec![7; size], &vec![7; size], &vec![7; size]));
            rooms.legs.fill(1);
            rooms.curves.fill(-1);
            rooms.text.fill(0);
        }
    }

    #[test]
    fn each_size_is_its_rooms() {
        let mut rooms = Rooms::default();
        rooms.lend(&[1, 2, 3, 4, 5, 6, 7, 8, 9, 10]).unwrap();
        let expected: Vec<u32> = (1..=ROOMS).map(|size| digest(&vec![7u8; size])).collect();
        assert_eq!(rooms.digests().to_vec(), expected);
        assert_eq!((rooms.samples.len(), rooms.second_choices.len(), rooms.text.len()), (4, 8, 10));
    }

    #[test]
    fn memory_that_is_not_there_is_told() {
        let mut sizes = [0; ROOMS];
        sizes[ROOMS - 2] = usize::MAX / 8;
        let failure = Rooms::default().lend(&sizes).unwrap_err();
        assert_eq!(failure.to_string(), "no memory for the room of curves");
    }
}
